import jakarta.servlet.ServletException;
import jakarta.servlet.http.HttpServletResponse;
import jakarta.servlet.http.HttpSession;
import jakarta.servlet.http.HttpSessionEvent;
import jakarta.servlet.http.HttpSessionListener;
import java.io.IOException;
import java.net.URLDecoder;
import java.nio.charset.StandardCharsets;
import java.security.MessageDigest;
import java.util.ArrayList;
import java.util.Arrays;
import java.util.List;
import org.apache.catalina.Context;
import org.apache.catalina.connector.Request;
import org.apache.catalina.connector.Response;
import org.apache.catalina.realm.GenericPrincipal;
import org.apache.catalina.valves.ValveBase;

/** Takes the caller and the roles of each request from the fields of nginx, and refuses a request without the secret. */
public class GuardValve extends ValveBase implements HttpSessionListener {
    private static final String OWNER = GuardValve.class.getName() + ".owner";
    private static final String ADMITTED = GuardValve.class.getName() + ".admitted";
    private static final String SECRET = "X-Application-Secret";
    /** The caller of the request that this thread serves, empty for a stranger. */
    private static final ThreadLocal<String> CALLER = new ThreadLocal<>();
    private byte[] secret = new byte[0];

    public GuardValve() {
        super(true);
    }

    /** The attribute `secret` of the element Valve. */
    public void setSecret(String text) {
        secret = bytes(text);
    }

    @Override
    public void invoke(Request request, Response response) throws IOException, ServletException {
        // An asynchronous dispatch comes here once more.
        boolean isDispatch = request.getNote(ADMITTED) != null;
        if (!isDispatch && !hasSecret(request)) {
            response.sendError(HttpServletResponse.SC_FORBIDDEN);
            return;
        }
        String caller = request.getHeader("X-Application-Caller");
        if (caller != null) {
            List<String> roles = roles(request.getHeader("X-Application-Roles"));
            request.setUserPrincipal(new GenericPrincipal(decoded(caller), roles));
            request.setAuthType("GUARD");
        }
        String owner = caller == null ? "" : caller;
        if (!isDispatch) {
            endSessionOfAnother(request, owner);
        }
        watchSessions(request.getContext());
        CALLER.set(owner);
        try {
            getNext().invoke(request, response);
        } finally {
            CALLER.remove();
        }
        HttpSession session = request.getSession(false);
        if (session != null && session.getAttribute(OWNER) == null) {
            session.setAttribute(OWNER, owner);
        }
    }

    /** Whether a request brings the secret, which is then taken out of it: a page of the application may show all fields. */
    private boolean hasSecret(Request request) {
        String given = request.getHeader(SECRET);
        if (secret.length == 0 || given == null || !MessageDigest.isEqual(secret, bytes(given))) {
            return false;
        }
        request.getCoyoteRequest().getMimeHeaders().removeHeader(SECRET);
        request.setNote(ADMITTED, Boolean.TRUE);
        return true;
    }

    /** Ends the application's session if it began with another caller, who logged out or used the same browser, or if nobody knows with whom it began. */
    private static void endSessionOfAnother(Request request, String owner) {
        HttpSession session = request.getSession(false);
        if (session == null) {
            return;
        }
        Object old = session.getAttribute(OWNER);
        if ("".equals(old) && !owner.isEmpty()) {
            request.changeSessionId();
            session.setAttribute(OWNER, owner);
        } else if (!owner.equals(old)) {
            session.invalidate();
        }
    }

    /** Lets this valve know of the sessions that a context opens. A context that is stopped has no listeners, and opens none. */
    private void watchSessions(Context context) {
        Object[] listeners = context == null ? null : context.getApplicationLifecycleListeners();
        if (listeners != null && !Arrays.asList(listeners).contains(this)) {
            Object[] all = Arrays.copyOf(listeners, listeners.length + 1);
            all[listeners.length] = this;
            context.setApplicationLifecycleListeners(all);
        }
    }

    /** Gives a new session to the caller of its thread, before a client knows it. One that an asynchronous thread opens has no owner, and serves no later request. */
    @Override
    public void sessionCreated(HttpSessionEvent event) {
        String caller = CALLER.get();
        if (caller != null) {
            event.getSession().setAttribute(OWNER, caller);
        }
    }

    private static List<String> roles(String field) {
        List<String> roles = new ArrayList<>();
        for (String name : field == null ? new String[0] : field.split(",")) {
            if (!name.isEmpty()) {
                roles.add(decoded(name));
            }
        }
        return roles;
    }

    /** The text of a percent-encoded name, in which a `+` is one. */
    private static String decoded(String name) {
        return URLDecoder.decode(name.replace("+", "%2B"), StandardCharsets.UTF_8);
    }

    private static byte[] bytes(String text) {
        return text.getBytes(StandardCharsets.UTF_8);
    }
}
