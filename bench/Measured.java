import jakarta.servlet.http.HttpServlet;
import jakarta.servlet.http.HttpServletRequest;
import jakarta.servlet.http.HttpServletResponse;
import java.io.IOException;
import java.nio.charset.StandardCharsets;
import java.util.concurrent.atomic.AtomicLong;

/** The servlets of `hello` and `run` that bench/speed compares: greets by a parameter, writes a response in pieces, or ends the session. */
public class Measured extends HttpServlet {
    private static final byte[] PIECE = "one\n".getBytes(StandardCharsets.UTF_8);
    private final AtomicLong greeted = new AtomicLong();

    @Override
    protected void service(HttpServletRequest request, HttpServletResponse response) throws IOException {
        response.setContentType("text/plain");
        switch (request.getServletPath()) {
            case "/hello" -> greet(request, response);
            case "/stream" -> writePieces(Integer.parseInt(request.getQueryString()), response);
            default -> leave(request, response);
        }
    }

    private void greet(HttpServletRequest request, HttpServletResponse response) throws IOException {
        String line = "Hello " + request.getParameter("name") + ", you are caller " + greeted.incrementAndGet() + ".\n";
        response.getOutputStream().write(line.getBytes(StandardCharsets.UTF_8));
    }

    private void writePieces(int count, HttpServletResponse response) throws IOException {
        for (int piece = 1; piece < count; piece++) {
            response.getOutputStream().write(PIECE);
            response.flushBuffer();
        }
        response.getOutputStream().write(PIECE);
    }

    private void leave(HttpServletRequest request, HttpServletResponse response) throws IOException {
        request.getSession().invalidate();
        response.getOutputStream().write("bye\n".getBytes(StandardCharsets.UTF_8));
    }
}
