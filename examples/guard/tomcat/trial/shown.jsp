<%@ page session="false" contentType="text/plain" %><%
  jakarta.servlet.http.HttpSession open = request.getSession(false);
%>user=<%= request.getRemoteUser() %> owner=<%= open == null ? null : open.getAttribute("owner") %> scheme=<%= request.getScheme() %> address=<%= request.getRemoteAddr() %>
