"""The module `lovendak`: its documentation, what it refuses, and its use from several threads."""
import doctest
import pickle
import threading
import unittest

import lovendak
from lovendak import (
    CANCELLED, DOWN, ENDED, FAILED, LIFTED, OVERLOADED, RELEASED, RESOLVED, SERVED, Broken, Contents, Lead, Place, Refused, TableSizes, Vat,
)

THREADS = 4


def load_tests(_loader, tests, _pattern):
    tests.addTests(doctest.DocTestSuite(lovendak))
    return tests


class Refusals(unittest.TestCase):
    def setUp(self):
        self.vat = Vat(root=0)
        self.ref = self.vat.host(1)

    def test_limits(self):
        client, server = Vat(), Vat(root=0)
        server.set_limits(5, 1 << 40)  # a Bootstrap has six words
        root = client.result_of(client.bootstrap())
        client.call(root, 7, 0, Contents.of([1]))
        self.assertTrue(server.wants_bytes())
        server.received(client.outgoing())
        self.assertEqual((server.load()[0], server.wants_bytes()), (6, False))
        self.assertEqual(list(server.events()), [])  # the Bootstrap is counted no more
        [served] = server.events()
        self.assertFalse(server.wants_bytes())
        server.answer(served.task, Contents.of([2]))
        client.received(server.outgoing())
        self.assertEqual((server.load(), server.wants_bytes()), ((0, 0), True))

    def test_numbers_out_of_range(self):
        vat, ref, some = self.vat, self.ref, Contents.of()
        cases = {
            "contents: -1 is not within 0 .. 18446744073709551615": lambda: Contents.of([-1]),
            "contents: 18446744073709551616 is not within 0 .. 18446744073709551615": lambda: Contents.of([1 << 64]),
            "number_at: -1 is not within 0 .. 18446744073709551615": lambda: some.number(-1),
            "text_at: 65536 is not within 0 .. 65535": lambda: some.text(65536),
            "ref_at: 65536 is not within 0 .. 65535": lambda: some.ref(0, 65536),
            "new: -1 is not within 0 .. 4294967295": lambda: Vat(level=-1),
            "new: 18446744073709551616 is not within 0 .. 18446744073709551615": lambda: Vat(root=1 << 64),
            "call: 70000 is not within 0 .. 65535": lambda: vat.call(ref, 1, 70000, some),
            "call: -2 is not within 0 .. 18446744073709551615": lambda: vat.call(ref, -2, 0, some),
            "answer: -3 is not within 0 .. 18446744073709551615": lambda: vat.answer(0, Contents(some.payload, [-3])),
            "field: 65536 is not within 0 .. 65535": lambda: vat.field(0, 65536),
            "host: 18446744073709551616 is not within 0 .. 18446744073709551615": lambda: vat.host(1 << 64),
            "fail: -1 is not within 0 .. 4294967295": lambda: vat.fail(0, -1, ""),
            "shut: 4294967296 is not within 0 .. 4294967295": lambda: vat.shut(1 << 32),
        }
        for text, wrong in cases.items():
            with self.subTest(text), self.assertRaises(ValueError) as raised:
                wrong()
            self.assertEqual(str(raised.exception), text)

    def test_what_is_no_number(self):
        cases = {
            "new: 'x' is no number": lambda: Vat(root="x"),
            "drop_ref: 'x' is no number": lambda: self.vat.drop_ref("x"),
            "contents: 1.5 is no number": lambda: Contents.of([1.5]),
            "call: None is no number": lambda: self.vat.call(self.ref, None, 0, Contents.of()),
            "call: None is no Contents": lambda: self.vat.call(self.ref, 1, 0, None),
            "answer: b'' is no Contents": lambda: self.vat.answer(0, b""),
        }
        for text, wrong in cases.items():
            with self.subTest(text), self.assertRaises(TypeError) as raised:
                wrong()
            self.assertEqual(str(raised.exception), text)

    def test_codes_by_their_names(self):
        vat = self.vat
        cases = {
            "UnknownRef: no such reference": lambda: vat.drop_ref(9),
            "UnknownCall: no such call": lambda: vat.finish(9),
            "UnknownTask: no such task": lambda: vat.fail(9, FAILED, ""),
            "UnknownPromise: no such promise": lambda: vat.resolve(9, self.ref),
            "Cycle: the promise would lead to itself": lambda: vat.resolve(*vat.promise()),
            "Level: a vat of level 0 has no promises and sends no references": lambda: Vat(level=0).promise(),
            "LOVENDAK_NO_PAYLOAD: these bytes are no payload": lambda: Contents(b"abc").number(0),
            "LOVENDAK_NO_SUCH_NUMBER: no such number": lambda: Vat(level=2),
        }
        for text, wrong in cases.items():
            with self.subTest(text), self.assertRaises(Refused) as raised:
                wrong()
            self.assertEqual(str(raised.exception), text)
            self.assertEqual(str(pickle.loads(pickle.dumps(raised.exception))), text)

    def test_no_bytes(self):
        with self.assertRaises(TypeError):
            self.vat.received("text")


class Conversations(unittest.TestCase):
    def test_bytes_in_parts(self):
        client, server = Vat(), Vat(root=0)
        client.bootstrap()
        whole = client.pending()[0]
        self.assertEqual(client.outgoing(0), b"")
        first = client.outgoing(10)
        self.assertEqual((len(first), client.pending()[0]), (10, whole - 10))
        server.received(first)
        self.assertEqual(server.pending(), (0, False))
        server.received(memoryview(client.outgoing()))
        self.assertGreater(server.pending()[0], 0)

    def test_a_large_payload(self):
        client, server = Vat(), Vat(root=0)
        target = client.result_of(client.bootstrap())
        client.call(target, 1, 0, Contents.of(range(50_000), refs=[target] * 50))
        server.received(client.outgoing())
        [event] = server.events()
        self.assertEqual((event.contents.number(49_999), len(event.contents.refs)), (49_999, 50))

    def test_what_events_say(self):
        client, server = Vat(), Vat(root=5)
        call = client.call(client.result_of(client.bootstrap()), 7, 3, Contents.of())
        server.received(client.outgoing())
        [served] = server.events()
        self.assertEqual((served.kind, served.object, served.interface, served.method), (SERVED, 5, 7, 3))
        self.assertEqual(repr(served), f"<task {served.task}: method 3 of 0x7 of object 5>")
        server.fail(served.task, OVERLOADED, "busy")
        client.received(server.outgoing())
        told = {event.call: event for event in client.events() if event.kind == ENDED}
        self.assertEqual((told[call].kind, told[call].exception), (ENDED, (OVERLOADED, "busy")))
        self.assertEqual(repr(told[call]), f"<call {call} ended: overloaded: busy>")
        client.ended()
        [down] = client.events()
        self.assertEqual((down.kind, down.number, down.fault, repr(down)), (DOWN, 0, None, "<down with 0>"))
        client, server = Vat(), Vat()
        server.shut(7)
        client.received(server.outgoing())
        [down] = client.events()
        self.assertEqual((down.number, down.reason), (34, "fault 7"))


def speak(one, other):
    """Each says all that it has to say, as long as there is anything."""
    while any(said := (one.outgoing(), other.outgoing())):
        other.received(said[0])
        one.received(said[1])


class Objects(unittest.TestCase):
    """A client, and a server whose bootstrap object it has."""

    def setUp(self):
        self.client, self.server = Vat(), Vat(root=0)
        self.asked = self.client.bootstrap()
        self.root = self.client.result_of(self.asked)
        speak(self.client, self.server)
        ended, known = self.client.events()
        self.client.drop_ref(*ended.contents.refs)
        self.assertEqual((known.kind, known.place, repr(known)), (RESOLVED, Place.ANSWER, "<the answer to question 0 is known>"))

    def served(self, *refs):
        """The next call is answered with these: the references that came with it."""
        speak(self.client, self.server)
        [event] = self.server.events()
        self.server.answer(event.task, Contents.of(refs=refs))
        speak(self.client, self.server)
        return event.contents.refs

    def test_released(self):
        own = self.client.host(9)
        call = self.client.call(self.root, 7, 0, Contents.of(refs=[own]))
        self.client.drop_ref(own)
        [given] = self.served()
        self.assertEqual([it.kind for it in self.client.events()], [ENDED])
        self.client.finish(call)
        self.server.drop_ref(given)
        speak(self.client, self.server)
        self.assertTrue(self.client.pending()[1])
        again = self.client.host(9)
        self.assertEqual(list(self.client.events()), [])
        self.client.drop_ref(again)
        [event] = self.client.events()
        self.assertEqual((event.kind, event.object, repr(event)), (RELEASED, 9, "<object 9 is released>"))

    def test_cancelled(self):
        client, server = self.client, self.server
        calls = [client.call(self.root, 7, number, Contents.of()) for number in range(2)]
        speak(client, server)
        first, second = server.events()
        server.answer(second.task, Contents.of())
        for call in calls:
            client.finish(call)
        speak(client, server)
        server.drop_ref(server.host(9))
        cancelled, released = server.events()
        self.assertEqual((cancelled.kind, cancelled.task, repr(cancelled)), (CANCELLED, first.task, f"<task {first.task} is cancelled>"))
        self.assertEqual(released.kind, RELEASED)
        server.fail(first.task, FAILED, "given up")
        speak(client, server)
        self.assertEqual((list(server.events()), list(client.events())), ([], []))

    def test_a_bootstrap_object_is_not_released(self):
        self.server.drop_ref(self.server.host(0))
        self.client.drop_ref(self.root)
        self.client.finish(self.asked)
        speak(self.client, self.server)
        self.assertTrue(self.server.shares_nothing())
        self.assertEqual(list(self.server.events()), [])

    def test_places(self):
        client = self.client
        own, (promise, promised) = client.host(9), client.promise()
        call = client.call(own, 7, 0, Contents.of())
        result = client.field(call, 0)
        for ref, lead in ((own, Lead(Place.OWN, 9)), (promised, Lead(Place.OWN_PROMISE)), (result, Lead(Place.OWN_CALL)),
                          (self.root, Lead(Place.ANSWER, 0))):
            self.assertEqual(client.leads_to(ref), lead)
        [event] = client.events()
        client.answer(event.task, Contents.of())
        self.assertEqual(client.leads_to(result), Lead(Place.BROKEN, reason=Broken.NULL))
        client.reject(promise, FAILED, "")
        self.assertEqual(client.leads_to(promised), Lead(Place.BROKEN, reason=Broken.PROMISE))
        self.assertEqual(client.advance(self.root), 1)
        self.assertEqual(client.leads_to(self.root), Lead(Place.IMPORT, 0))
        with self.assertRaisesRegex(Refused, "UnknownRef"):
            client.leads_to(99)

    def test_a_promise_becomes_known(self):
        client, server = self.client, self.server
        promise, promised = server.promise()
        client.call(self.root, 7, 0, Contents.of())
        self.served(promised)
        [ended] = client.events()
        [ref] = ended.contents.refs
        client.call(self.root, 7, 1, Contents.of(refs=[client.host(9)]))
        before = client.leads_to(ref)
        self.assertEqual(before, Lead(Place.IMPORT, before.number, is_promise=True))
        [given] = self.served()
        server.resolve(promise, given)
        speak(client, server)
        _, known = client.events()
        self.assertEqual((known.kind, known.place, known.number), (RESOLVED, Place.IMPORT, before.number))
        self.assertEqual(repr(known), f"<import {before.number} is known>")
        self.assertEqual(client.leads_to(ref), Lead(Place.IMPORT, before.number))
        self.assertEqual(client.advance(ref), 2)
        self.assertEqual(client.leads_to(ref), Lead(Place.OWN, 9, is_embargoed=True))
        speak(client, server)
        [lifted] = client.events()
        self.assertEqual((lifted.kind, lifted.ref, repr(lifted)), (LIFTED, ref, f"<the embargo of reference {ref} is over>"))

    def test_finishes_behind_returns(self):
        for after_return, answers in ((True, 2), (False, 1)):
            self.client.set_finishes(after_return)
            self.client.finish(self.client.call(self.root, 7, 0, Contents.of()))
            speak(self.client, self.server)
            event, *more = self.server.events()
            self.assertEqual([it.kind for it in more], [] if after_return else [CANCELLED])
            self.server.answer(event.task, Contents.of())
            self.assertEqual(self.server.table_sizes(), TableSizes(questions=0, answers=answers, exports=1, imports=0))
            speak(self.client, self.server)
            self.assertEqual(self.client.table_sizes(), TableSizes(questions=1, answers=0, exports=0, imports=1))
        self.assertEqual(list(self.client.events()), [])


class Threads(unittest.TestCase):
    def together(self, work):
        """Runs it in several threads; the first exception of any is raised."""
        wrong = []

        def guarded():
            try:
                work()
            except BaseException as error:
                wrong.append(error)

        threads = [threading.Thread(target=guarded) for _ in range(THREADS)]
        for thread in threads:
            thread.start()
        for thread in threads:
            thread.join()
        if wrong:
            raise wrong[0]

    def test_references(self):
        vat = Vat()

        def work():
            for number in range(25_000):
                vat.drop_ref(vat.host(number))

        self.together(work)
        self.assertTrue(vat.shares_nothing())

    def test_calls_and_events(self):
        """Calls of four threads, whose bytes and events are taken by all of them: each call is served and ends once, as it was made."""
        client, server = Vat(), Vat(root=0)
        target = client.result_of(client.bootstrap())
        line, made, ended = threading.Lock(), {}, {}

        def speak():
            with line:  # bytes arrive in the order in which they were taken
                server.received(client.outgoing())
                client.received(server.outgoing())

        def serve():
            for event in server.events():
                server.answer(event.task, Contents(event.contents.payload))
            for event in client.events():
                if event.kind == ENDED:
                    ended[event.call] = event.contents

        def work():
            name = threading.get_ident()
            for number in range(300):
                made[client.call(target, 7, 0, Contents.of([name] * (number * 4 % 1500), str(number)))] = name, str(number)
                speak()
                serve()

        self.together(work)
        for _ in range(3):
            speak()
            serve()
        self.assertEqual(len(made), 300 * THREADS)
        told = {call: (ended[call].number(0) or name, ended[call].text(0)) for call, (name, _) in made.items()}
        self.assertEqual(told, made)


if __name__ == "__main__":
    unittest.main()
