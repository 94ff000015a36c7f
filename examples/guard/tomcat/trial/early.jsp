<%@ page contentType="text/plain" %><%
  // A client knows the session before the request ends.
  session.setAttribute("owner", request.getRemoteUser());
  response.flushBuffer();
  Thread.sleep(1000);
%>owner=<%= session.getAttribute("owner") %>
