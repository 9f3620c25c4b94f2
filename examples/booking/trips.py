"""Four trips of an agency, each a flight, a hotel and a payment."""
import time

from services import Service, call

SECONDS = 8


class Agency:
    """The client: it starts an action for each trip, books at each service, and ends the action."""

    def __init__(self, base, services):
        self.coordinator = base + "lra-coordinator"
        self.services = services

    def book(self, title):
        """Starts a trip, and books at each service."""
        print(f"\n{title}")
        trip = call("POST", self.coordinator)["lra"]
        for service in self.services:
            call("POST", service.uri("book"), {"Long-Running-Action": trip})
        return trip

    def end(self, trip, how):
        """Closes or cancels a trip."""
        print(f"  the agency asks to {how} it: it is {call('PUT', f'{trip}/{how}')['status']}")

    def wait(self, trip, moving):
        """Waits until a trip has ended, and tells what happened at each service."""
        end = time.monotonic() + SECONDS
        while (status := call("GET", trip)["status"]) == moving and time.monotonic() < end:
            time.sleep(0.05)
        time.sleep(0.2)
        for service in self.services:
            print(f"  the {service.name}: {', '.join(service.story[trip])}")
        print(f"  the trip is {status}")


def book_trips(agency, hotel, payment):
    """Books four trips."""
    trip = agency.book("A trip that goes well")
    agency.end(trip, "close")
    agency.wait(trip, "Closing")

    trip = agency.book("A trip that the traveller doesn't want any more")
    agency.end(trip, "cancel")
    agency.wait(trip, "Cancelling")

    trip = agency.book("A trip that is cancelled while the hotel is down")
    hotel.go_down()
    agency.end(trip, "cancel")
    time.sleep(1)
    print(f"  a second later it is still {call('GET', trip)['status']}; the hotel comes up again, and is asked again")
    hotel.come_up()
    agency.wait(trip, "Cancelling")

    trip = agency.book("A trip that can't be paid in the end")
    payment.refuses.add(trip)
    agency.end(trip, "close")
    agency.wait(trip, "Closing")


def book_at(base):
    """Books four trips at a coordinator whose identifiers begin with a base."""
    flight = Service("flight", "seat held", "ticket issued", "seat given back")
    hotel = Service("hotel", "room held", "room booked", "room given back")
    payment = Service("payment", "money reserved", "money taken", "money released")
    try:
        print(f"The coordinator is there, and the {flight.name}, the {hotel.name} and the {payment.name}.")
        book_trips(Agency(base, [flight, hotel, payment]), hotel, payment)
    finally:
        for service in (flight, hotel, payment):
            service.go_down()
