"""Calls that are awaited under asyncio: who is woken, time limits, tasks that are cancelled."""

import asyncio
import threading
import unittest
from unittest import mock

from seryugo import Closed, Gone, Stalled, Switchboard, check

from . import LIMIT


def run(coroutine):
    """Run a test to its end, and fail if it sleeps on."""
    return asyncio.run(asyncio.wait_for(coroutine, LIMIT))


class Awaiting(unittest.TestCase):
    def setUp(self):
        self.board = Switchboard(100_000)

    def seats(self, count):
        seats = [self.board.seat() for _ in range(count)]
        for seat in seats:
            self.addCleanup(seat.leave)
        return seats

    async def parked(self, count):
        """Wait until this many seats are parked."""
        while len(self.board._room._parked) < count:
            await asyncio.sleep(0.001)

    def receives(self, sender, receiver, mailbox, waiting):
        """Have a thread receive, send once this many seats wait, and see that it comes."""
        received = []

        def receive():
            received.append(receiver.recv(mailbox))

        thread = threading.Thread(target=receive, daemon=True)
        thread.start()
        asyncio.run(self.parked(waiting))
        sender.send(mailbox, 5)
        thread.join(LIMIT)
        self.assertEqual(received, [5])

    def test_a_message_that_waits_is_received_at_once(self):
        (seat,) = self.seats(1)
        mailbox = seat.mailbox(str)
        seat.send(mailbox, "hello")
        self.assertEqual(run(seat.recv_async(mailbox)), "hello")

    def test_each_call_is_woken(self):
        main, other = self.seats(2)
        mailbox, once, cell, full = (
            main.mailbox(int),
            main.ivar(int),
            main.mvar(int),
            main.mvar(int),
        )
        port = main.port(main.channel(str))
        calls = [
            (lambda: other.recv_async(mailbox), lambda: main.send(mailbox, 1), 1),
            (lambda: other.get_async(once), lambda: main.put(once, 2), 2),
            (lambda: other.take_async(cell), lambda: main.put(cell, 3), 3),
            (lambda: other.swap_async(full, 5), lambda: main.put(full, 4), 4),
        ]

        async def woken(wait, wake):
            task = asyncio.ensure_future(wait())
            await self.parked(1)
            wake()
            return await task

        for wait, wake, expected in calls:
            self.assertEqual(run(woken(wait, wake)), expected)
        self.assertEqual(self.board.held(full), 5)
        with self.assertRaises(Closed):
            run(woken(lambda: other.recv_async(port), lambda: main.close_port(port)))

    def test_a_thread_wakes_a_task(self):
        main, other = self.seats(2)
        mailbox = main.mailbox(int)

        async def received():
            task = asyncio.ensure_future(other.recv_async(mailbox))
            await self.parked(1)
            thread = threading.Thread(target=main.send, args=(mailbox, 7))
            thread.start()
            message = await task
            thread.join()
            return message

        self.assertEqual(run(received()), 7)

    def test_a_task_wakes_a_thread(self):
        main, other = self.seats(2)
        mailbox = main.mailbox(int)
        found = []
        thread = threading.Thread(target=lambda: found.append(other.recv(mailbox)))
        thread.start()

        async def send():
            await self.parked(1)
            main.send(mailbox, 9)

        run(send())
        thread.join(LIMIT)
        self.assertEqual(found, [9])

    def test_many_tasks_on_one_thread(self):
        seats = self.seats(201)
        mailbox, answers = seats[0].mailbox(int), seats[0].mailbox(int)

        async def worker(seat):
            seat.send(answers, await seat.recv_async(mailbox))

        async def all_work():
            tasks = [asyncio.ensure_future(worker(seat)) for seat in seats[1:]]
            await self.parked(200)
            threads = threading.active_count()
            for number in range(200):
                seats[0].send(mailbox, number)
            await asyncio.gather(*tasks)
            return threads, sorted([await seats[0].recv_async(answers) for _ in range(200)])

        before = threading.active_count()
        threads, found = run(all_work())
        self.assertEqual(found, list(range(200)))
        self.assertEqual(threads, before)

    def test_a_time_limit_withdraws_the_call(self):
        main, other = self.seats(2)
        mailbox = main.mailbox(int)
        with self.assertRaises(TimeoutError):
            run(other.recv_async(mailbox, timeout=0.01))
        with self.assertRaises(ValueError):
            run(other.recv_async(mailbox, timeout=-1))
        main.send(mailbox, 5)
        self.assertEqual(other.recv(mailbox), 5)

    def test_a_cancelled_call_is_withdrawn(self):
        main, other, third = self.seats(3)
        mailbox = main.mailbox(int)

        async def cancelled():
            task = asyncio.ensure_future(other.recv_async(mailbox))
            await self.parked(1)
            task.cancel()
            await asyncio.gather(task, return_exceptions=True)
            return task.cancelled()

        self.assertTrue(run(cancelled()))
        self.assertEqual(self.board._room._parked, set())
        main.send(mailbox, 5)
        self.assertEqual(third.recv(mailbox), 5)
        self.assertEqual(self.board.got(mailbox), 1)

    def test_a_cancelled_call_hands_the_message_on(self):
        """Two wait. The first is woken and cancelled at once: the second gets the message."""
        main, one, two = self.seats(3)
        mailbox = main.mailbox(int)

        async def handed_on():
            first = asyncio.ensure_future(one.recv_async(mailbox))
            await self.parked(1)
            second = asyncio.ensure_future(two.recv_async(mailbox))
            await self.parked(2)
            main.send(mailbox, 5)
            first.cancel()
            return await second

        self.assertEqual(run(handed_on()), 5)

    def test_a_coroutine_that_is_closed_withdraws_its_call(self):
        main, other = self.seats(2)
        mailbox = main.mailbox(int)

        async def closed():
            call = other.recv_async(mailbox)
            call.send(None)
            call.close()
            return self.board._room._parked

        self.assertEqual(run(closed()), set())

    def test_a_loop_that_ended_hinders_nobody(self):
        main, other = self.seats(2)
        mailbox = main.mailbox(int)
        loop = asyncio.new_event_loop()

        async def begun():
            call = other.recv_async(mailbox)
            call.send(None)
            return call

        call = loop.run_until_complete(begun())
        loop.close()
        main.send(mailbox, 5)
        self.assertEqual(main.recv(mailbox), 5)
        call.close()

    def test_a_loop_that_was_closed_hands_its_wake_on(self):
        main, other, last = self.seats(3)
        mailbox = main.mailbox(int)
        loop = asyncio.new_event_loop()
        task = loop.create_task(other.recv_async(mailbox))
        loop.run_until_complete(self.parked(1))
        loop.close()
        self.receives(main, last, mailbox, 2)
        # The task is never done: nobody runs its loop.
        task._log_destroy_pending = False

    def test_a_listener_of_a_call_that_ended_is_forgotten(self):
        main, other = self.seats(2)
        mailbox = main.mailbox(int)
        room = self.board._room
        listen = room.listen

        def interrupted(*arguments):
            listen(*arguments)
            raise KeyboardInterrupt

        async def begun():
            with self.assertRaises(KeyboardInterrupt):
                other.recv_async(mailbox).send(None)

        with mock.patch.object(room, "listen", interrupted):
            run(begun())
        self.receives(main, other, mailbox, 1)

    def test_all_that_wait_are_stalled(self):
        one, two = self.seats(2)
        mailbox = one.mailbox(int)

        async def stalled(seat):
            with seat:
                with self.assertRaises(Stalled):
                    await seat.recv_async(mailbox)
            return True

        async def both():
            return await asyncio.gather(stalled(one), stalled(two))

        self.assertEqual(run(both()), [True, True])

    def test_two_tasks_on_one_seat_are_refused(self):
        main, other = self.seats(2)
        mailbox = main.mailbox(int)

        async def both():
            task = asyncio.ensure_future(other.recv_async(mailbox))
            await self.parked(1)
            with self.assertRaises(Gone):
                await other.recv_async(mailbox)
            main.send(mailbox, 5)
            return await task

        self.assertEqual(run(both()), 5)

    def test_messages_in_an_async_loop(self):
        main, other = self.seats(2)
        mailbox = main.mailbox(int)

        async def send():
            for number in range(100):
                main.send(mailbox, number)
                await asyncio.sleep(0)
            main.leave()

        async def receive():
            return [message async for message in other.iter_async(mailbox)]

        async def both():
            return (await asyncio.gather(send(), receive()))[1]

        self.assertEqual(run(both()), list(range(100)))

    def test_a_server_of_requests(self):
        """The sample of the README."""
        main, other = self.seats(2)
        requests, answers = main.mailbox(str), main.mailbox(str)

        async def serve(seat, requests, answers):
            async for request in seat.iter_async(requests):
                seat.send(answers, request.upper())

        async def ask():
            server = asyncio.ensure_future(serve(other, requests, answers))
            main.send(requests, "tea")
            answer = await main.recv_async(answers)
            main.leave()
            await server
            return answer

        self.assertEqual(run(ask()), "TEA")

    def test_tasks_and_threads_that_give_up(self):
        """Tasks and threads receive with short time limits: each message comes once."""
        seats = self.seats(5)
        mailbox = seats[0].mailbox(int)
        found = []

        async def task(seat):
            while True:
                try:
                    found.append(await seat.recv_async(mailbox, timeout=0.0005))
                except TimeoutError:
                    continue
                except Stalled:
                    seat.leave()
                    return

        def thread(seat):
            while True:
                try:
                    found.append(seat.recv(mailbox, timeout=0.0005))
                except TimeoutError:
                    continue
                except Stalled:
                    seat.leave()
                    return

        def send():
            for number in range(2_000):
                seats[0].send(mailbox, number)
            seats[0].leave()

        async def tasks():
            await asyncio.gather(task(seats[1]), task(seats[2]))

        threads = [threading.Thread(target=thread, args=(seat,)) for seat in seats[3:]]
        threads.append(threading.Thread(target=send))
        for one in threads:
            one.start()
        run(tasks())
        for one in threads:
            one.join(LIMIT)
        self.assertEqual(sorted(found), list(range(2_000)))
        journal = self.board.take_journal()
        self.assertEqual(check(journal), len(journal))
