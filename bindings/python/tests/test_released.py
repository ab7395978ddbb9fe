"""An object is released once, as the last place goes that names it, in whatever kind of place that is."""
import unittest

from lovendak import FAILED, RELEASED, SERVED, Contents, Vat

OBJECT = 9


def speak(one, other):
    """Each says all that it has to say, as long as there is anything."""
    while any(said := (one.outgoing(), other.outgoing())):
        other.received(said[0])
        one.received(said[1])


class Scene:
    """A client, and a server whose bootstrap object it has."""

    def __init__(self):
        self.client, self.server = Vat(), Vat(root=0)
        self.root = self.client.result_of(self.client.bootstrap())
        self.speak()
        self.refs_told(self.client)

    def speak(self):
        speak(self.client, self.server)

    def refs_told(self, vat):
        """The references that come with the next events."""
        return [ref for event in vat.events() if getattr(event, "contents", None) for ref in event.contents.refs]

    def called(self, *refs):
        """A call of the client, and its task at the server with the references that came."""
        call = self.client.call(self.root, 7, 0, Contents.of(refs=refs))
        self.speak()
        [event] = self.server.events()
        return call, event.task, event.contents.refs

    def answered(self, task, *refs):
        """The references that come with the server's answer."""
        self.server.answer(task, Contents.of(refs=refs))
        self.speak()
        return self.refs_told(self.client)

    def echoed(self):
        """An object of the client goes with a call, and comes back with its results: the call, and the reference that came."""
        own = self.client.host(OBJECT)
        call, task, [given] = self.called(own)
        self.client.drop_ref(own)
        [came] = self.answered(task, given)
        self.server.drop_ref(given)
        self.speak()
        return call, came

    def given(self, ref):
        """A reference of the client is its peer's now, and no call is open: the peer's."""
        call, task, [given] = self.called(ref)
        self.client.drop_ref(ref)
        self.answered(task)
        self.client.finish(call)
        self.speak()
        return given

    def got(self, ref):
        """A reference of the server is its peer's now, and no call is open: the peer's."""
        call, task, _ = self.called()
        [got] = self.answered(task, ref)
        self.server.drop_ref(ref)
        self.client.finish(call)
        self.speak()
        return got

    def settled(self, calls):
        """A promise of the server that is the client's own object, which made a call through it or none: the client's reference."""
        promise, promised = self.server.promise()
        ref = self.got(promised)
        given = self.given(self.client.host(OBJECT))
        if calls:
            self.client.call(ref, 7, 1, Contents.of())
        self.server.resolve(promise, given)
        self.server.drop_ref(given)
        self.speak()
        list(self.client.events())
        return ref


def reference(scene):
    own = scene.client.host(OBJECT)
    yield scene.client
    scene.client.drop_ref(own)


def export(scene):
    given = scene.given(scene.client.host(OBJECT))
    yield scene.client
    scene.server.drop_ref(given)


def promise(scene):
    own, (promised, ref) = scene.client.host(OBJECT), scene.client.promise()
    scene.client.resolve(promised, own)
    scene.client.drop_ref(own)
    yield scene.client
    scene.client.drop_ref(ref)


def kept_outcome(scene):
    call, task, _ = scene.called()
    own = scene.server.host(OBJECT)
    scene.client.drop_ref(*scene.answered(task, own))
    scene.server.drop_ref(own)
    scene.speak()
    yield scene.server
    scene.client.finish(call)


def own_outcome(scene):
    call, came = scene.echoed()
    scene.client.drop_ref(came)
    yield scene.client
    scene.client.finish(call)


def capability_of_a_return(scene):
    call, came = scene.echoed()
    scene.client.finish(call)
    scene.speak()
    yield scene.client
    scene.client.drop_ref(came)


def resolve(scene):
    ref = scene.settled(calls=False)
    yield scene.client
    scene.client.drop_ref(ref)


def embargo(scene):
    ref = scene.settled(calls=True)
    assert scene.client.advance(ref) == 2  # under an embargo
    scene.client.call(ref, 7, 2, Contents.of())
    scene.client.drop_ref(ref)
    yield scene.client  # until the peer has sent the embargo back, and the call is served


def call_that_waits(scene):
    own, (promised, ref) = scene.client.host(OBJECT), scene.client.promise()
    scene.client.call(ref, 7, 0, Contents.of(refs=[own]))
    scene.client.drop_ref(own)
    yield scene.client
    scene.client.reject(promised, FAILED, "")


def call_of_the_peer_that_waits(scene):
    promised, ref = scene.server.promise()
    promise_of_peer, own = scene.got(ref), scene.got(scene.server.host(OBJECT))
    scene.client.call(promise_of_peer, 7, 0, Contents.of(refs=[own]))
    scene.client.drop_ref(own)
    scene.speak()
    yield scene.server
    scene.server.reject(promised, FAILED, "")


PLACES = [reference, export, promise, kept_outcome, own_outcome, capability_of_a_return, resolve, embargo, call_that_waits,
          call_of_the_peer_that_waits]


class Released(unittest.TestCase):
    def test_the_last_place(self):
        for place in PLACES:
            with self.subTest(place.__name__):
                scene = Scene()
                goes = place(scene)
                vat = next(goes)
                self.assertNotIn(RELEASED, [event.kind for event in vat.events()])
                next(goes, None)
                scene.speak()
                told = [event for event in vat.events() if event.kind in (SERVED, RELEASED)]
                self.assertEqual([event.kind for event in told], [SERVED] * (place is embargo) + [RELEASED])
                self.assertEqual({event.object for event in told}, {OBJECT})
                scene.speak()
                self.assertEqual([event.kind for event in vat.events()], [])


if __name__ == "__main__":
    unittest.main()
