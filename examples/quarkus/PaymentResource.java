package org.example.shop;

import jakarta.enterprise.context.ApplicationScoped;
import jakarta.ws.rs.GET;
import jakarta.ws.rs.HeaderParam;
import jakarta.ws.rs.POST;
import jakarta.ws.rs.PUT;
import jakarta.ws.rs.Path;
import jakarta.ws.rs.core.Response;
import java.net.URI;
import java.util.Map;
import java.util.concurrent.ConcurrentHashMap;
import org.eclipse.microprofile.lra.annotation.Compensate;
import org.eclipse.microprofile.lra.annotation.Complete;
import org.eclipse.microprofile.lra.annotation.ParticipantStatus;
import org.eclipse.microprofile.lra.annotation.Status;
import org.eclipse.microprofile.lra.annotation.ws.rs.LRA;

/** Payments: each joins the order's action, and is taken back if that is cancelled. */
@ApplicationScoped
@Path("payments")
public class PaymentResource {
    private final Map<URI, ParticipantStatus> payments = new ConcurrentHashMap<>();

    @POST
    @LRA(value = LRA.Type.MANDATORY, end = false)
    public Response pay(@HeaderParam(LRA.LRA_HTTP_CONTEXT_HEADER) URI action, String order) {
        payments.put(action, ParticipantStatus.Active);
        return Response.ok().build();
    }

    @PUT
    @Path("complete")
    @Complete
    public Response complete(@HeaderParam(LRA.LRA_HTTP_CONTEXT_HEADER) URI action) {
        payments.put(action, ParticipantStatus.Completed);
        return Response.ok(ParticipantStatus.Completed.name()).build();
    }

    @PUT
    @Path("compensate")
    @Compensate
    public Response compensate(@HeaderParam(LRA.LRA_HTTP_CONTEXT_HEADER) URI action) {
        payments.put(action, ParticipantStatus.Compensated);
        return Response.ok(ParticipantStatus.Compensated.name()).build();
    }

    @GET
    @Path("status")
    @Status
    public Response status(@HeaderParam(LRA.LRA_HTTP_CONTEXT_HEADER) URI action) {
        ParticipantStatus status = payments.get(action);
        return status == null ? Response.status(410).build() : Response.ok(status.name()).build();
    }
}
