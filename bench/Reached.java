import jakarta.servlet.http.HttpServlet;
import jakarta.servlet.http.HttpServletRequest;
import jakarta.servlet.http.HttpServletResponse;

/** Answers every request of every method with 200. Fields of the answer say by which kind of dispatch it was reached, and in which context. */
public class Reached extends HttpServlet {
    @Override
    protected void service(HttpServletRequest request, HttpServletResponse response) {
        response.setHeader("X-Reached", request.getDispatcherType().name());
        response.setHeader("X-Context", request.getContextPath());
    }
}
