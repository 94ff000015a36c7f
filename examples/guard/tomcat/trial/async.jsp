<%@ page session="false" contentType="text/plain" %><%
  // A thread of its own opens the session, after the thread of the request is done.
  request.setAttribute("org.apache.catalina.ASYNC_SUPPORTED", true);
  String user = request.getRemoteUser();
  jakarta.servlet.AsyncContext later = request.startAsync();
  later.start(() -> {
    try {
      Thread.sleep(500);
    } catch (InterruptedException end) {
      return;
    }
    request.getSession().setAttribute("owner", user);
    later.complete();
  });
%>
