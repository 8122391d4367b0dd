"""A drive whose range 1 is locked, by the library, and by the program behind pipes. The values are worked from ACS-3 and
TCG Core 2.01. `.ci/library` runs it: OPALPORT_LIBRARY names the shared library, OPALPORT_PROGRAM the program, and python/ is
on the path of modules."""
import copy
import gc
import os
import pickle
import threading
import unittest

from opalport import (Code, Command, Denied, Drive, EngineStep, Failure, Hba, Kind, OpalError, Port, Range, Reason, Reset, Taken,
                      Went, Work, Worked, call_named, command_fis, decoded_text, frame, library_version, opened, tokens_text, trusted_fis)
from opalport_pipe import PipedDrive

LOCKED = Range(1, 100, 10, True, True, True, True)
SECURITY, COM_ID, SECTOR = 1, 0x1000, 512
# StartSession on the Locking SP as Admin1 with the MSID; Set of range 1: ReadLocked and WriteLocked are 0.
START = bytes.fromhex("f8a800000000000000ffa8000000000000ff02f007a8000002050000000201f200a84f50414c4d534944f3f203"
                      "a80000000900010001f3f1f9f0000000f1")
UNLOCK = bytes.fromhex("f8a80000080200030001a80000000600000017f0f201f0f20700f3f20800f3f1f3f1f9f0000000f1")
# What lifts a read lock of range 1: the ACEs of its Set that name the column (Opal SSC 2.01, Locking SP's AccessControl).
LIFTED = ("lifted by: Set of Locking_Range1 ReadLocked = 0 by Admins (ACE_Locking_Admins_RangeStartToLOR), or by Admins "
          "(ACE_Locking_Range1_Set_RdLocked)")
# StartSession on the Locking SP without an authority.
START_AS_ANYBODY = bytes.fromhex("f8a800000000000000ffa8000000000000ff02f007a8000002050000000201f1f9f0000000f1")
# Random of ThisSP, of 8 bytes.
RANDOM = bytes.fromhex("f8a80000000000000001a80000000600000601f008f1f9f0000000f1")


def read(lba, count=1):
    return command_fis(Command.READ_DMA, lba, count)


class OnADrive(unittest.TestCase):
    def setUp(self):
        self.drive = Drive(ranges=[LOCKED])
        self.addCleanup(self.drive.close)

    def refuses(self, code, call, *words):
        with self.assertRaises(OpalError) as it:
            call(*words)
        self.assertEqual(it.exception.code, code)

    def call(self, tsn, hsn, tokens, drive=None):
        drive = drive or self.drive
        block = frame(COM_ID, tsn, hsn, tokens).ljust(SECTOR, b"\0")
        self.assertEqual(drive.accept(trusted_fis(True, SECURITY, COM_ID, 1), block).status, 0x50)
        answer = drive.accept(trusted_fis(False, SECURITY, COM_ID, 1))
        return tokens_text(opened(answer.data).payload)

    def test_a_locked_read_is_denied_with_its_reason(self):
        answer = self.drive.accept(read(95, 6))
        self.assertEqual((answer.status, answer.error, answer.denied, answer.data), (0x51, 0x04, True, b""))
        self.assertEqual(self.drive.denial(7), "1 7 deny read 95+6 range 1 ReadLocked")
        self.assertEqual(self.drive.accept(read(0)).data, bytes(SECTOR))
        self.assertEqual(self.drive.denial(7), "")

    def test_a_denial_is_told_in_numbers(self):
        self.drive.accept(read(95, 6))
        self.assertEqual(self.drive.denied(7), Denied(1, 7, Reason.READ_LOCKED, lba=95, count=6, range=1))
        self.assertEqual(self.drive.remedy(), LIFTED)
        self.drive.accept(command_fis(Command.WRITE_DMA, 109), bytes(SECTOR))
        self.assertEqual(self.drive.denied(), Denied(2, 0, Reason.WRITE_LOCKED, lba=109, count=1, range=1))
        self.drive.accept(read(0))
        self.assertIsNone(self.drive.denied(7))
        self.assertEqual(self.drive.remedy(), "")

    def test_each_failure_of_an_attempt_has_its_number(self):
        self.assertEqual([int(it) for it in (Reason.WRONG_PIN, Reason.LOCKED_OUT, Reason.DISABLED, Reason.BLOCKED, Reason.UNKNOWN)],
                         [7, 8, 9, 10, 11])
        admin, user, admins = "0000000900010001", "0000000900030001", "0000000900000002"
        # TryLimit of Admin1 is 5. Nothing but the send is a denial: behind the receive there is none.
        send, receive = trusted_fis(True, SECURITY, COM_ID, 1), trusted_fis(False, SECURITY, COM_ID, 1)
        wrong = frame(COM_ID, 0, 0, START.replace(b"OPALMSID", b"OPALMSIE")).ljust(SECTOR, b"\0")
        told = []
        for authority in [admin] * 6 + [user, admins]:
            tokens = START.replace(bytes.fromhex(admin), bytes.fromhex(authority))
            self.drive.accept(send, wrong if authority == admin else frame(COM_ID, 0, 0, tokens).ljust(SECTOR, b"\0"))
            told.append(self.drive.denied().reason)
            self.drive.accept(receive)
            self.assertIsNone(self.drive.denied())
        self.assertEqual(told, [Reason.WRONG_PIN] * 5 + [Reason.LOCKED_OUT, Reason.DISABLED, Reason.UNKNOWN])

    def test_a_blocked_sid_has_its_number(self):
        # Block SID Authentication (TCG Storage Feature Set: Block SID Authentication): security protocol 02h, ComID 0005h.
        with Drive(profile="field") as drive:
            self.assertEqual(drive.accept(trusted_fis(True, 2, 5, 1), bytes(SECTOR)).status, 0x50)
            tokens = START.replace(bytes.fromhex("0000020500000002"), bytes.fromhex("0000020500000001"))
            tokens = tokens.replace(bytes.fromhex("0000000900010001"), bytes.fromhex("0000000900000006"))
            drive.accept(trusted_fis(True, SECURITY, COM_ID, 1), frame(COM_ID, 0, 0, tokens).ljust(SECTOR, b"\0"))
            self.assertEqual(drive.denied(), Denied(2, 0, Reason.BLOCKED, sp="Admin", object=0x0000000900000006))

    def test_a_denied_call_is_told_in_numbers(self):
        send = trusted_fis(True, SECURITY, COM_ID, 1)
        self.drive.accept(send, frame(COM_ID, 0, 0, START.replace(b"OPALMSID", b"OPALMSIE")).ljust(SECTOR, b"\0"))
        self.assertEqual(self.drive.denied(), Denied(1, 0, Reason.WRONG_PIN, sp="Locking", object=0x0000000900010001))
        self.drive.accept(trusted_fis(False, SECURITY, COM_ID, 1))
        self.call(0, 0, START_AS_ANYBODY)
        self.drive.accept(send, frame(COM_ID, 0x1000, 7, UNLOCK).ljust(SECTOR, b"\0"))
        self.assertEqual(self.drive.denied(), Denied(5, 0, Reason.NO_ACE, sp="Locking", object=0x0000080200030001,
                                                     method=0x0000000600000017, column=7))

    def test_a_denial_keeps_its_number_until_the_next_command(self):
        self.drive.accept(read(95, 6))
        self.drive.reset(1)
        self.assertEqual(self.drive.denial(7), "1 7 deny read 95+6 range 1 ReadLocked")
        self.refuses(Code.LENGTH, self.drive.accept, bytes(19))
        self.assertEqual(self.drive.denial(7), "1 7 deny read 95+6 range 1 ReadLocked")
        self.drive.accept(read(95, 6))
        self.assertEqual(self.drive.denial(7), "3 7 deny read 95+6 range 1 ReadLocked")

    def test_a_failed_queue_aborts_until_its_page_is_read(self):
        self.assertFalse(self.drive.accept(command_fis(Command.READ_QUEUED, 100, 1, 3)).held)
        self.assertEqual(self.drive.failure(), Failure(3, 0x04, 0x40, 3 << 3, 100))
        self.assertEqual(self.drive.accept(read(0)).status, 0x51)
        page = self.drive.accept(command_fis(Command.READ_QUEUE_ERROR)).data
        self.assertEqual((page[0], page[3], sum(page) % 256), (3, 0x04, 0))
        self.assertIsNone(self.drive.failure())
        self.assertEqual(self.drive.accept(read(0)).status, 0x50)

    def test_an_unlocked_range_gives_what_was_written(self):
        self.assertEqual(self.call(0, 0, START), "call 00000000000000ff 000000000000ff03 [7 4096] 0 0 0")
        self.assertEqual(self.call(0x1000, 7, UNLOCK), "reply [] 0 0 0")
        self.assertTrue(self.drive.accept(command_fis(Command.WRITE_QUEUED, 100, 2, 9)).held)
        self.assertEqual(self.drive.expects(9), 2 * SECTOR)
        self.assertEqual(self.drive.complete(9, b"\xa5" * (2 * SECTOR)).status, 0x50)
        self.assertEqual(self.drive.accept(read(100, 2)).data, b"\xa5" * (2 * SECTOR))

    def test_a_reset_locks_the_range_again(self):
        self.call(0, 0, START)
        self.call(0x1000, 7, UNLOCK)
        self.assertFalse(self.drive.accept(read(100)).has_failed)
        self.drive.reset(Reset.POWER_CYCLE)
        self.assertTrue(self.drive.accept(read(100)).has_failed)

    def test_what_a_caller_gets_wrong_is_an_error(self):
        self.refuses(Code.LENGTH, self.drive.accept, read(0)[:19])
        self.refuses(Code.LENGTH, self.drive.accept, read(0), b"\0")
        self.refuses(Code.TAG, self.drive.complete, 32)
        self.refuses(Code.TAG, self.drive.complete, 256 + 1)
        self.refuses(Code.NOT_HELD, self.drive.complete, 1)
        self.refuses(Code.NUMBER, self.drive.reset, 2)
        self.refuses(Code.NUMBER, command_fis, Command.READ_DMA, 2**48)
        self.refuses(Code.NUMBER, command_fis, Command.READ_DMA, 0, 65_537)
        self.refuses(Code.NUMBER, command_fis, 7)
        self.refuses(Code.TAG, command_fis, Command.READ_QUEUED, 0, 1, 32)
        self.refuses(Code.LENGTH, frame, COM_ID, 0, 0, b"")
        self.refuses(Code.MALFORMED, opened, bytes(56))
        self.refuses(Code.MALFORMED, decoded_text, Kind.IDENTIFY, b"")
        self.refuses(Code.NUMBER, decoded_text, 7, b"")
        self.drive.close()
        self.refuses(Code.NOT_OPEN, self.drive.accept, read(0))
        self.refuses(Code.NOT_OPEN, self.drive.denial)

    def test_a_field_drive_has_commands_of_28_bits(self):
        def short(command, feature=0, device=0x40, count=1):
            return bytes([0x27, 0x80, command, feature, 5, 0, 0, device, 0, 0, 0, 0, count, 0, 0, 0, 0, 0, 0, 0])
        with Drive(profile="field") as drive:
            self.assertEqual(drive.payload_length(short(0xCA, count=0)), 256 * SECTOR)
            self.assertEqual(drive.accept(short(0xCA), b"\x5a" * SECTOR).status, 0x50)
            self.assertEqual(drive.accept(short(0xC8)).data, b"\x5a" * SECTOR)
            self.assertEqual(drive.accept(read(5)).data, b"\x5a" * SECTOR)
            for fis in (short(0xC8, device=0), short(0xCA, device=0)):
                answer = drive.accept(fis, bytes(drive.payload_length(fis)))
                self.assertEqual((answer.status, answer.error, answer.denied), (0x51, 0x04, False))
            for fis in (short(0xE7), short(0xEF, feature=0x03, count=0x46)):
                self.assertEqual(drive.accept(fis).status, 0x50)
            answer = drive.accept(short(0xEF))
            self.assertEqual((answer.status, answer.error, answer.denied), (0x51, 0x04, False))
        for command in (0xC8, 0xCA, 0xE7, 0xEF):
            answer = self.drive.accept(short(command), bytes(self.drive.payload_length(short(command))))
            self.assertEqual((answer.status, answer.error, answer.denied), (0x51, 0x04, False))

    def test_a_drive_that_cannot_be(self):
        def make(**options):
            Drive(**options)
        for code, options in ((Code.SECTORS, {"sectors": 0}), (Code.SECTORS, {"sectors": 2**48 + 1}), (Code.SHADOW, {"shadow": 1001}),
                              (Code.MSID, {"msid": b""}), (Code.MSID, {"msid": bytes(33)}), (Code.SERIAL, {"serial": "1"}),
                              (Code.SERIAL, {"profile": "field", "serial": "x" * 21}), (Code.MODEL, {"profile": "field", "model": "\n"}),
                              (Code.PSID, {"psid": b"1"}), (Code.PSID, {"profile": "field", "psid": bytes(33)}),
                              (Code.DATASTORE, {"datastore": 1}),
                              (Code.SHADOW, {"profile": "opal", "shadow": 262_143}), (Code.DATASTORE, {"profile": "opal", "datastore": 10_485_759}),
                              (Code.DATASTORE, {"profile": "field", "datastore": 2**64 - 1}),
                              (Code.SEED, {"seed": 1}), (Code.SEED, {"profile": "field", "seed": 2**64 - 1})):
            with self.assertRaises(OpalError) as it:
                make(**options)
            self.assertEqual(it.exception.code, code)
        for code, ranges in ((Code.RANGE_TWICE, [LOCKED, Range(1, 200, 1)]), (Code.NO_RANGE, [Range(17, 0, 1)]), (Code.OVERLAP, [LOCKED, Range(2, 109, 1)]),
                             (Code.BEYOND, [Range(1, 1000, 1)])):
            with self.assertRaises(OpalError) as it:
                make(ranges=ranges)
            self.assertEqual(it.exception.code, code)

    def test_random_bytes_come_of_the_seed(self):
        for seed, told in ((0, "9e3cda7817b553f1"), (1 << 56, "9f3ddb7918b654f2")):
            with Drive(profile="opal", seed=seed, ranges=[LOCKED]) as self.drive:
                self.call(0, 0, START_AS_ANYBODY)
                self.assertEqual(self.call(0x1000, 7, RANDOM), f"reply [x{told}] 0 0 0")

    def test_what_a_drive_is_made_with(self):
        self.assertEqual((self.drive.sectors, self.drive.shadow, self.drive.profile), (1000, 8, "base"))
        with Drive(sectors=2048, shadow=0, profile="field") as drive:
            self.assertEqual((drive.sectors, drive.shadow, drive.profile), (2048, 0, "field"))
        with Drive(profile="opal") as drive:
            self.assertEqual((drive.sectors, drive.shadow, drive.profile), (524_288, 262_144, "opal"))
        self.drive.accept(command_fis(Command.WRITE_DMA, 99), b"\x07" * SECTOR)
        self.assertEqual((self.drive.media(99), self.drive.media(100)), (b"\x07" * SECTOR, bytes(SECTOR)))
        self.refuses(Code.NUMBER, self.drive.media, 1000)
        self.assertEqual(library_version().split(" ")[0].count("."), 2)

    def test_buffers_are_taken_as_they_are(self):
        data = bytearray(b"\x01\x02" * 256)
        for payload in (bytes(data), data, memoryview(data), memoryview(bytes(data)), memoryview(data + data)[::2]):
            self.assertEqual(self.drive.accept(command_fis(Command.WRITE_DMA, 5), payload).status, 0x50)
            self.assertEqual(self.drive.accept(memoryview(bytearray(read(5)))).data, bytes(payload))
        into = bytearray(600)
        answer = self.drive.accept_into(read(5), memoryview(into)[8:])
        self.assertEqual((answer.status, bytes(answer.data), bytes(into[8:520])), (0x50, b"\x01" * SECTOR, b"\x01" * SECTOR))
        self.assertEqual((into[:8], into[520:]), (bytes(8), bytes(80)))
        self.refuses(Code.ROOM, self.drive.accept_into, read(5), bytearray(511))
        for payload in (512, "1", None):
            with self.assertRaises(TypeError):
                self.drive.accept(command_fis(Command.WRITE_DMA, 5), payload)
        with self.assertRaises(TypeError):
            self.drive.accept_into(read(5), bytes(512))

    def test_a_copy_goes_its_own_way(self):
        self.call(0, 0, START)
        self.drive.accept(command_fis(Command.WRITE_DMA, 5), b"\x05" * SECTOR)
        self.assertTrue(self.drive.accept(command_fis(Command.READ_QUEUED, 5, 1, 3)).held)
        for again in (Drive.clone, copy.copy, copy.deepcopy):
            with again(self.drive) as copied:
                self.assertEqual(copied.complete(3).data, b"\x05" * SECTOR)
                self.assertEqual(copied.accept(read(95, 6)).denied, True)
                self.assertEqual(copied.denial(7), "6 7 deny read 95+6 range 1 ReadLocked")
                self.assertEqual(self.call(0x1000, 7, UNLOCK, copied), "reply [] 0 0 0")
                self.assertEqual(copied.accept(read(95, 6)).data, bytes(6 * SECTOR))
                copied.accept(command_fis(Command.WRITE_DMA, 5, 2), b"\x06" * (2 * SECTOR))
                self.assertEqual(copied.media(5), b"\x06" * SECTOR)
        self.assertEqual(self.drive.complete(3).data, b"\x05" * SECTOR)
        self.assertEqual((self.drive.media(5), self.drive.media(6)), (b"\x05" * SECTOR, bytes(SECTOR)))
        self.assertEqual(self.drive.accept(read(95, 6)).denied, True)
        self.assertEqual(self.drive.denial(7), "6 7 deny read 95+6 range 1 ReadLocked")
        self.drive.close()
        with self.assertRaises(OpalError):
            self.drive.clone()

    def test_a_copy_of_a_port_has_its_slots(self):
        with Port() as port:
            self.assertEqual(port.put(1, 3, Command.READ_QUEUED, lba=100), 1)
            with port.clone() as copied:
                self.assertEqual((copied.issue(3), copied.ready()), (2, [(EngineStep.ACCEPT, 3)]))
                self.assertEqual(copied.put(2, 5, Command.READ_QUEUED, lba=7), 3)
            self.assertEqual(port.ready(), [(EngineStep.ISSUE, 3)])
            self.assertEqual(port.issue(3), 2)

    def test_a_copy_of_a_controller_has_its_registers(self):
        with Hba() as hba:
            hba.write(0x114, 0x01)  # PxIE.DHRE
            with hba.clone() as copied:
                self.assertEqual(copied.read(0x114), 0x01)
                copied.write(0x114, 0x02)
                self.assertEqual((hba.read(0x114), copied.read(0x114)), (0x01, 0x02))

    def test_a_drive_is_saved_and_loaded(self):
        self.call(0, 0, START)
        self.assertEqual(self.call(0x1000, 7, UNLOCK), "reply [] 0 0 0")
        self.drive.accept(command_fis(Command.WRITE_DMA, 99, 2), b"\x05" * (2 * SECTOR))
        self.assertTrue(self.drive.accept(command_fis(Command.READ_QUEUED, 99, 1, 3)).held)
        saved = self.drive.save()
        self.assertEqual(self.drive.complete(3).data, b"\x05" * SECTOR)  # it goes on as it was
        self.assertEqual(self.drive.accept(read(99, 2)).data, b"\x05" * (2 * SECTOR))
        with Drive.load(saved) as loaded:
            self.assertEqual(loaded.save(), saved)
            self.refuses(Code.NOT_HELD, loaded.complete, 3)
            # LockOnReset of a range has the power cycle from the factory on (Opal SSC 2.01, 4.3.5.2.2).
            self.assertEqual(loaded.accept(read(99, 2)).denied, True)
            self.assertEqual(loaded.denial(7), "1 7 deny read 99+2 range 1 ReadLocked")
            self.assertEqual(loaded.accept(read(99)).data, b"\x05" * SECTOR)
            self.assertEqual(loaded.media(100), b"\x05" * SECTOR)
            # The session that was open is gone, and the next one has the next number.
            self.assertIn(bytes.fromhex("07821001"), self.started(loaded))
            self.assertEqual(self.call(0x1001, 7, UNLOCK, loaded), "reply [] 0 0 0")
            self.assertEqual(loaded.accept(read(99, 2)).data, b"\x05" * (2 * SECTOR))

    def started(self, drive):
        drive.accept(trusted_fis(True, SECURITY, COM_ID, 1), frame(COM_ID, 0, 0, START).ljust(SECTOR, b"\0"))
        return opened(drive.accept(trusted_fis(False, SECURITY, COM_ID, 1)).data).payload

    def test_a_drive_of_each_profile_is_saved(self):
        for words in ({}, {"profile": "field", "serial": "S 1", "datastore": 100}, {"profile": "opal", "psid": b"a label", "seed": 7}):
            with self.subTest(**words), Drive(sectors=524_288, shadow=262_144, ranges=[LOCKED], **words) as drive:
                drive.accept(command_fis(Command.WRITE_DMA, 524_287), bytes(range(256)) * 2)
                with Drive.load(drive.save()) as loaded:
                    self.assertEqual((loaded.profile, loaded.sectors, loaded.shadow), (drive.profile, 524_288, 262_144))
                    self.assertEqual(loaded.media(524_287), bytes(range(256)) * 2)
                    drive.reset(Reset.POWER_CYCLE)
                    for lba in (0, 95, 100, 524_287):
                        self.assertEqual(loaded.accept(read(lba, 1)), drive.accept(read(lba, 1)))
                    for page in range(2):  # Level 0 discovery, and IDENTIFY DEVICE
                        fis = trusted_fis(False, SECURITY, 1, 1) if page == 0 else command_fis(Command.IDENTIFY, 0, 0)
                        self.assertEqual(loaded.accept(fis), drive.accept(fis))

    def test_what_a_port_and_a_controller_have_is_saved(self):
        for make in (Port, Hba):
            with make(sectors=20, msid=b"m") as it, Drive(sectors=20, msid=b"m") as drive:
                self.assertEqual(it.save(), drive.save())

    def test_bytes_that_are_no_saved_drive(self):
        saved = self.drive.save()
        at = saved.index(b"Opalport") + 8
        wrong = [b"", b"\xfa", saved[:-1], saved + b"\xff", b"\xf1" + saved[1:], saved[:at] + b"\x02" + saved[at + 1:],
                 saved.replace(b"Opalport", b"Opalporn", 1), saved[:at + 2] + b"\x03" + saved[at + 3:], bytes(100)]
        for text in wrong:
            with self.subTest(text=text[:20]):
                self.refuses(Code.MALFORMED, Drive.load, text)

    def test_a_drive_is_not_pickled(self):
        with self.assertRaises(TypeError):
            pickle.dumps(self.drive)
        self.assertIsNone(self.drive.failure())

    def test_an_error_says_what_to_do_and_passes_between_processes(self):
        for code in Code:
            error = pickle.loads(pickle.dumps(OpalError(code)))
            self.assertEqual((error.code, str(error)), (code, str(OpalError(code))))
        self.assertIn("0 to 31", str(OpalError(Code.TAG)))
        self.assertEqual((OpalError(999).code, str(OpalError(999))), (999, "the code 999"))
        self.drive.close()
        with self.assertRaises(ValueError):
            self.drive.failure()

    def test_bytes_as_text(self):
        self.assertEqual(tokens_text(b""), "malformed 1 Truncated")
        self.assertIn("Set", tokens_text(UNLOCK, by_name=True))
        self.assertIn("LBA 100\n", decoded_text(Kind.FIS, read(100)))

    def test_a_call_by_name(self):
        self.assertEqual(call_named("set 1 Locking_Range1 ReadLocked=0 WriteLocked=0"), UNLOCK)
        self.assertEqual(call_named("end 1"), b"\xfa")
        for line in ("", "set 1 Locking_Range1 ReadLocked", "set Locking_Range1 ReadLocked=0", "set 1 Locking_Range17 ReadLocked=0", "\u00e9"):
            with self.subTest(line=line), self.assertRaises(OpalError) as it:
                call_named(line)
            self.assertEqual(it.exception.code, Code.MALFORMED)

    def test_two_drives_in_two_threads(self):
        told = []

        def work():
            with Drive() as drive:
                told.append(all(drive.accept(read(lba)).data == bytes(SECTOR) for lba in range(100)))
        threads = [threading.Thread(target=work) for _ in range(2)]
        for it in threads:
            it.start()
        for it in threads:
            it.join()
        self.assertEqual(told, [True, True])

    def test_threads_share_a_drive(self):
        def work(lba):
            told.append(all(self.drive.accept(read(lba, count)).data == bytes(SECTOR * count) for count in range(1, 9)))
        told = []
        threads = [threading.Thread(target=work, args=(it,)) for it in range(8)]
        for it in threads:
            it.start()
        for it in threads:
            it.join()
        self.assertEqual(told, [True] * 8)

    def test_a_drive_goes_with_its_last_reference(self):
        for _ in range(20):
            Drive(ranges=[LOCKED])
        gc.collect()


class OnAPort(unittest.TestCase):
    def setUp(self):
        self.port = Port(ranges=[LOCKED])
        self.addCleanup(self.port.close)

    def refuses(self, code, call, *words, **named):
        with self.assertRaises(OpalError) as it:
            call(*words, **named)
        self.assertEqual(it.exception.code, code)

    def finish(self):
        """Has the engine do what it may, and gives how many steps that were."""
        steps = 0
        while self.port.turn():
            steps += 1
        return steps

    def test_a_denied_read_stops_the_queue_until_the_port_recovers(self):
        self.assertEqual(self.port.put(1, 3, Command.READ_QUEUED, lba=100), 1)
        self.assertEqual(self.port.put(2, 5, Command.WRITE_QUEUED, lba=200, payload=b"\x5a" * SECTOR), 2)
        self.assertEqual(self.port.ready(), [(EngineStep.ISSUE, 3), (EngineStep.ISSUE, 5)])
        steps = self.port.issue(5), self.port.issue(3), self.port.accept(5), self.port.accept(3)
        self.assertEqual(steps, (3, 4, 5, 6))
        shown = self.port.shown()
        self.assertEqual((shown.task, shown.issued, shown.active, shown.denials), (0x0451, 0x08, 0x28, 1))
        self.assertEqual(self.port.denial(0), "6 1 deny read 100+1 range 1 ReadLocked")
        self.assertEqual(self.port.denial(1), "")
        denied = Denied(6, 1, Reason.READ_LOCKED, lba=100, count=1, range=1)
        self.assertEqual((self.port.denied(0), self.port.denied(1)), (denied, None))
        self.assertEqual((self.port.denials(), self.port.denials(shown.denials)), ([denied], []))
        self.assertEqual((self.port.remedy(0), self.port.remedy(1)), (LIFTED, ""))
        self.refuses(Code.PORT_FAILED, self.port.complete, 5)
        self.assertEqual(self.port.ready(), [(EngineStep.RECOVER, 0)])
        self.assertEqual(self.port.recover(), 7)
        self.refuses(Code.PORT_NOT_YOURS, self.port.take, 2, 3)
        self.assertEqual(self.port.take(1, 3), Taken(8, False, False, 0x51, 0x04, b""))
        self.assertEqual(self.finish(), 3)
        self.assertEqual(self.port.take(2, 5), Taken(12, True, False, 0, 0, b""))

    def test_a_port_gives_what_was_written(self):
        data = bytes(range(256)) * 4
        self.port.put(1, 0, Command.WRITE_DMA, lba=7, payload=data)
        self.assertEqual(self.finish(), 2)
        self.assertTrue(self.port.take(1, 0).done)
        self.port.put(1, 31, Command.READ_QUEUED, lba=7, count=2)
        self.assertEqual(self.finish(), 3)
        self.assertEqual(self.port.take(1, 31).data, data)

    def test_a_call_and_its_answer(self):
        self.port.put(1, 0, Command.TRUSTED_SEND, protocol=SECURITY, com_id=COM_ID,
                      payload=frame(COM_ID, 0, 0, START).ljust(SECTOR, b"\0"))
        self.assertEqual(self.finish(), 2)
        self.assertTrue(self.port.take(1, 0).done)
        self.port.put(1, 0, Command.TRUSTED_RECEIVE, protocol=SECURITY, com_id=COM_ID)
        self.assertEqual(self.finish(), 2)
        self.assertEqual(tokens_text(opened(self.port.take(1, 0).data).payload),
                         "call 00000000000000ff 000000000000ff03 [7 4096] 0 0 0")

    def test_a_reset_stops_what_waits(self):
        self.port.put(1, 2, Command.FLUSH)
        self.assertEqual(self.port.reset(2, 1), 2)
        self.assertEqual(self.port.take(1, 2), Taken(3, False, True, 0, 0, b""))

    def test_what_a_caller_gets_wrong_is_an_error(self):
        port = self.port
        self.refuses(Code.TAG, port.issue, 32)
        self.refuses(Code.TAG, port.take, 1, 256)
        self.refuses(Code.PORT_NOT_PREPARED, port.issue, 0)
        self.refuses(Code.PORT_NOT_ISSUED, port.accept, 0)
        self.refuses(Code.PORT_NOT_ACCEPTED, port.complete, 0)
        self.refuses(Code.PORT_NOT_FAILED, port.recover)
        self.refuses(Code.PORT_NOT_ANSWERED, port.take, 1, 0)
        self.refuses(Code.PORT_SIZE, port.put, 1, 0, Command.READ_DMA, lba=0, count=257)
        self.refuses(Code.PORT_SIZE, port.put, 1, 0, Command.READ_DMA, lba=2**48, count=1)
        self.refuses(Code.LENGTH, port.put, 1, 0, Command.IDENTIFY, payload=b"\0")
        self.refuses(Code.NUMBER, port.put, 1, 0, Command.READ_QUEUE_ERROR)
        self.refuses(Code.NUMBER, port.put, 1, 0, 9)
        self.refuses(Code.NUMBER, port.reset, 1, 2)
        port.put(1, 0, Command.IDENTIFY)
        self.refuses(Code.PORT_SLOT_BUSY, port.put, 1, 0, Command.IDENTIFY)
        port.put(1, 1, Command.READ_QUEUED)
        port.issue(0)
        self.refuses(Code.PORT_QUEUE, port.issue, 1)
        port.close()
        self.refuses(Code.NOT_OPEN, port.recover)
        self.refuses(Code.NOT_OPEN, port.shown)

    def test_a_port_that_cannot_be(self):
        for code, options in ((Code.SECTORS, {"sectors": 0}), (Code.NO_RANGE, {"ranges": [Range(17, 0, 1)]})):
            with self.assertRaises(OpalError) as it:
                Port(**options)
            self.assertEqual(it.exception.code, code)


class OnAController(unittest.TestCase):
    """AHCI 1.3.1: the registers by their offsets; a command list at 100000h, received FISes at 101000h, a table at 102000h."""
    BASE, PxCLB, PxFB, PxIS, PxCMD, PxTFD, PxSERR, PxCI = 0x100000, 0x100, 0x108, 0x110, 0x118, 0x120, 0x130, 0x138

    def setUp(self):
        self.hba, self.memory = Hba(ranges=[LOCKED]), bytearray(0x4000)
        self.addCleanup(self.hba.close)

    def put(self, at, *words):
        for word in words:
            self.memory[at:at + 4] = word.to_bytes(4, "little")
            at += 4

    def start(self):
        for offset, value in ((self.PxCLB, self.BASE), (self.PxFB, self.BASE + 0x1000), (self.PxSERR, 2**32 - 1), (self.PxCMD, 0x11)):
            self.hba.write(offset, value)
        self.assertEqual(self.hba.turn(self.memory, self.BASE), Worked(Work.SIGNATURE, 0, Went.POSTED, False))

    def read(self, lba):
        """READ DMA EXT of a sector in slot 0, by a descriptor of 512 bytes at 103000h."""
        self.put(0, 5 | 1 << 16, 0, self.BASE + 0x2000)
        self.memory[0x2000:0x2014] = read(lba)
        self.put(0x2080, self.BASE + 0x3000, 0, 0, 511)
        self.hba.write(self.PxCI, 1)
        return self.hba.turn(self.memory, self.BASE)

    def test_a_locked_read_is_denied_and_another_one_served(self):
        self.start()
        self.memory[0x3000:0x3200] = b"\xff" * SECTOR
        self.assertEqual(self.read(100), Worked(Work.FETCH, 0, Went.SERVED, True))
        self.assertEqual((self.hba.read(self.PxTFD), self.memory[0x3000]), (0x0451, 0xff))
        self.assertEqual(self.hba.denial(), "1 0 deny read 100+1 range 1 ReadLocked")
        self.assertEqual(self.hba.denied(), Denied(1, 0, Reason.READ_LOCKED, lba=100, count=1, range=1))
        self.assertEqual(self.hba.remedy(), LIFTED)
        self.hba.power_cycle()
        self.assertEqual((self.hba.read(self.PxCLB), self.hba.read(self.PxCI), self.hba.interrupt()), (0, 0, False))
        self.start()
        self.assertEqual(self.read(0), Worked(Work.FETCH, 0, Went.SERVED, False))
        self.assertEqual(self.memory[0x3000:0x3200], bytes(SECTOR))
        self.assertEqual(self.hba.turn(self.memory, self.BASE).work, Work.NONE)

    def test_what_lies_in_no_region_is_no_memory(self):
        """A block of 512 bytes at 103000h: within one region, past its end by a byte, before it by one, in two that touch."""
        front = (self.BASE, 0x3000)
        for regions, went in (
            ([(self.BASE, 0x4000)], Went.SERVED),
            ([front, (self.BASE + 0x3000, 512)], Went.SERVED),
            ([front, (self.BASE + 0x3000, 511)], Went.NO_DATA),
            ([front, (self.BASE + 0x3001, 0xfff)], Went.NO_DATA),
            ([(self.BASE, 0x3100), (self.BASE + 0x3100, 0xf00)], Went.NO_DATA),
            ([], Went.NO_LIST),
        ):
            with self.subTest(regions=regions):
                self.hba.power_cycle()
                self.start()
                self.memory[0x3000:0x3200] = b"\xff" * SECTOR
                self.put(0, 5 | 1 << 16, 0, self.BASE + 0x2000)
                self.memory[0x2000:0x2014] = read(0)
                self.put(0x2080, self.BASE + 0x3000, 0, 0, 511)
                self.hba.write(self.PxCI, 1)
                self.assertEqual(self.hba.turn(self.memory, self.BASE, regions=regions), Worked(Work.FETCH, 0, went, False))
                served = went == Went.SERVED
                self.assertEqual(self.memory[0x3000:0x3200], bytes(SECTOR) if served else b"\xff" * SECTOR)
        with self.assertRaises(OpalError) as it:
            self.hba.turn(self.memory, self.BASE, regions=[(0, 2**64)])
        self.assertEqual(it.exception.code, Code.NUMBER)

    def test_memory_past_4_gib_is_reached_with_64_bit_addresses(self):
        """AHCI 1.3.1, 3.1.1, 3.3.2, 3.3.4, 4.2.2 and 4.2.3.3: the list, received FISes, the table and the block past 12 GiB."""
        above = 3 << 32 | self.BASE
        for is_wide, cap, upper, went in ((True, 0xc1249f00, 3, Went.SERVED), (False, 0x41249f00, 0, Went.NO_LIST)):
            with self.subTest(is_wide=is_wide), Hba(wide_addresses=is_wide) as self.hba:
                for offset in (self.PxCLB + 4, self.PxFB + 4):
                    self.hba.write(offset, 3)
                    self.assertEqual(self.hba.read(offset), upper)
                self.assertEqual(self.hba.read(0), cap)
                for offset, value in ((self.PxCLB, self.BASE), (self.PxFB, self.BASE + 0x1000), (self.PxCMD, 0x11)):
                    self.hba.write(offset, value)
                self.assertEqual(self.hba.turn(self.memory, above).work, Work.SIGNATURE)
                self.memory[0x3000:0x3200] = b"\xff" * SECTOR
                self.put(0, 5 | 1 << 16, 0, self.BASE + 0x2000, 3)
                self.memory[0x2000:0x2014] = read(0)
                self.put(0x2080, self.BASE + 0x3000, 3, 0, 511)
                self.hba.write(self.PxCI, 1)
                self.assertEqual(self.hba.turn(self.memory, above), Worked(Work.FETCH, 0, went, False))
                self.assertEqual(self.memory[0x3000:0x3200], bytes(SECTOR) if is_wide else b"\xff" * SECTOR)
                saved = self.hba.save()
                for loads_wide, told in ((True, 0xc1249f00), (False, 0x41249f00)):
                    with Hba.load(saved, wide_addresses=loads_wide) as loaded:
                        self.assertEqual(loaded.read(0), told)
        self.hba = Hba()
        self.addCleanup(self.hba.close)

    def test_a_controller_over_a_drive_that_was_saved(self):
        self.start()
        self.read(0)
        self.read(100)
        saved = self.hba.save()
        self.hba.close()
        self.hba = Hba.load(saved)
        self.addCleanup(self.hba.close)
        self.assertEqual(self.hba.save(), saved)
        # After its reset the controller tells no signature, and no address of the host (AHCI 1.3.1, 3.3.1 and 3.3.9).
        self.assertEqual((self.hba.read(self.PxCLB), self.hba.read(self.PxCMD + 0xC), self.hba.denial()), (0, 2**32 - 1, ""))
        self.start()
        self.assertEqual(self.read(100), Worked(Work.FETCH, 0, Went.SERVED, True))
        # The acts of the drive are counted from the load on.
        self.assertEqual(self.hba.denial(), "1 0 deny read 100+1 range 1 ReadLocked")
        self.memory[0x3000:0x3200] = b"\xff" * SECTOR
        self.hba.power_cycle()
        self.start()
        self.assertEqual(self.read(0), Worked(Work.FETCH, 0, Went.SERVED, False))
        self.assertEqual(self.memory[0x3000:0x3200], bytes(SECTOR))
        with Drive.load(saved) as drive, Hba.load(drive.save()) as other:
            self.assertEqual(other.save(), saved)
        for text in (b"", saved[:-1], saved + b"\xff"):
            with self.assertRaises(OpalError) as it:
                Hba.load(text)
            self.assertEqual(it.exception.code, Code.MALFORMED)

    def test_what_a_caller_gets_wrong_is_an_error(self):
        with self.assertRaises(OpalError) as it:
            self.hba.read(2**32)
        self.assertEqual(it.exception.code, Code.NUMBER)
        with self.assertRaises(TypeError):
            self.hba.turn(bytes(512))
        self.hba.close()
        with self.assertRaises(OpalError) as it:
            self.hba.interrupt()
        self.assertEqual(it.exception.code, Code.NOT_OPEN)


@unittest.skipUnless(os.environ.get("OPALPORT_PROGRAM"), "OPALPORT_PROGRAM names no program")
class OverPipes(unittest.TestCase):
    def test_the_same_reads_by_the_program(self):
        with PipedDrive(os.environ["OPALPORT_PROGRAM"], ["range 1 100 10 1 0 1 0"]) as drive:
            self.assertEqual(drive.ask("read 7 5 95 5"), ["ok" + " 00000000" * 5])
            self.assertEqual(drive.ask("read 7 5 95 6"), ["fail 51 04", "audit 3 7 deny read 95+6 range 1 ReadLocked"])
            self.assertEqual(drive.ask("log 7")[0][:12], "data 0500510")
            with self.assertRaises(EOFError):
                drive.ask("no line")


if __name__ == "__main__":
    unittest.main()
