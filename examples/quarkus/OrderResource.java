package org.example.shop;

import jakarta.inject.Inject;
import jakarta.ws.rs.HeaderParam;
import jakarta.ws.rs.POST;
import jakarta.ws.rs.Path;
import jakarta.ws.rs.core.Response;
import java.net.URI;
import java.time.temporal.ChronoUnit;
import org.eclipse.microprofile.lra.annotation.ws.rs.LRA;
import org.eclipse.microprofile.rest.client.inject.RegisterRestClient;
import org.eclipse.microprofile.rest.client.inject.RestClient;

/** Orders: each is an action, which closes when the method returns and cancels when it fails. */
@Path("orders")
public class OrderResource {
    /** The payments' service. The client sends the action's identifier on. */
    @RegisterRestClient(configKey = "payments")
    @Path("payments")
    public interface Payments {
        @POST
        Response pay(String order);
    }

    @Inject
    @RestClient
    Payments payments;

    @POST
    @LRA(value = LRA.Type.REQUIRES_NEW, timeLimit = 10, timeUnit = ChronoUnit.MINUTES)
    public Response place(@HeaderParam(LRA.LRA_HTTP_CONTEXT_HEADER) URI action, String order) {
        payments.pay(order);
        return Response.ok(action.toString()).build();
    }
}
