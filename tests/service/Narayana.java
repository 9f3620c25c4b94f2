import java.net.URI;
import java.net.URLEncoder;
import java.net.http.HttpClient;
import java.net.http.HttpRequest;
import java.net.http.HttpRequest.BodyPublishers;
import java.net.http.HttpResponse;
import java.net.http.HttpResponse.BodyHandlers;
import java.nio.charset.StandardCharsets;

/** Sends what the client of MicroProfile LRA's annotations sends: Narayana COORDINATOR MEMBER. */
public class Narayana {
    private static final HttpClient CLIENT = HttpClient.newBuilder().version(HttpClient.Version.HTTP_1_1).build();
    private static final String VERSION = "Narayana-LRA-API-version";

    private static HttpResponse<String> send(HttpRequest.Builder request) throws Exception {
        HttpResponse<String> reply = CLIENT.send(request.header(VERSION, "1.1").build(), BodyHandlers.ofString());
        if (!reply.headers().firstValue(VERSION).orElse("").equals("1.1")) {
            throw new IllegalStateException("no version: " + reply);
        }
        return reply;
    }

    private static HttpRequest.Builder put(String uri, String body) {
        return HttpRequest.newBuilder(URI.create(uri)).header("Content-Type", "text/plain").header("Accept", "text/plain")
            .PUT(BodyPublishers.ofString(body));
    }

    private static HttpResponse<String> status(String uri) throws Exception {
        return send(HttpRequest.newBuilder(URI.create(uri + "/status")).header("Accept", "text/plain").GET());
    }

    private static String link(String uri, String relation) {
        return "<" + uri + "/" + relation + ">; rel=\"" + relation + "\"; title=\"" + relation
            + " URI\"; type=\"text/plain\"";
    }

    private static HttpResponse<String> join(String uri, String links) throws Exception {
        return send(put(uri + "?TimeLimit=0", links).header("Link", links).header("Long-Running-Action", uri));
    }

    public static void main(String[] words) throws Exception {
        String coordinator = words[0];
        String client = URLEncoder.encode("Narayana.java", StandardCharsets.UTF_8);
        HttpResponse<String> started = send(HttpRequest.newBuilder(
            URI.create(coordinator + "/start?ClientID=" + client + "&TimeLimit=600000&ParentLRA="))
            .header("Accept", "text/plain").POST(BodyPublishers.noBody()));
        System.out.println("start " + started.statusCode());
        String action = started.headers().firstValue("Location").orElse(started.body());
        String uri = coordinator + action.substring(action.lastIndexOf('/'));
        String links = link(words[1], "compensate") + "," + link(words[1], "complete");
        HttpResponse<String> joined = join(uri, links);
        System.out.println("join " + joined.statusCode());
        String recovery = joined.headers().firstValue("Long-Running-Action-Recovery").orElse("none");
        HttpResponse<String> again = join(uri, links);
        System.out.println("again " + again.statusCode() + (again.body().equals(recovery) ? " same" : " other"));
        System.out.println("status " + status(uri).statusCode() + " " + status(uri).body());
        System.out.println("renew " + send(put(uri + "/renew?TimeLimit=500000", "")).statusCode());
        System.out.println("leave " + send(put(uri + "/remove", recovery)).statusCode());
        System.out.println("join " + join(uri, links).statusCode());
        System.out.println("status " + status(uri).statusCode() + " " + status(uri).body());
        HttpResponse<String> closed = send(put(uri + "/close", ""));
        System.out.println("close " + closed.statusCode());
        for (int turn = 0; turn < 100 && status(uri).body().equals("Closing"); turn++) {
            Thread.sleep(100);
        }
        System.out.println("end " + status(uri).body());
    }
}
