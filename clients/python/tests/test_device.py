"""The rules of a slave: numbers, refusals, states, turns, data, resets and the log."""
import struct
import unittest

from masters import MASTER, SOURCE, STRANGER, Doubler, Played, data, register, request

from dcp_slave import ModelFault
from dcp_slave.messages import Fault, Refusal, State


class Registers(unittest.TestCase):
    def refusal_of(self, message):
        sends = Played().device.on_datagram(STRANGER, message)
        self.assertEqual(sends[0][0], STRANGER)
        kind, number, sender, expected, code = struct.unpack("<BHBHH", sends[0][1])
        self.assertEqual((kind, number, sender, expected), (0xb1, 0, 2, 0))
        return code

    def test_refusals_in_their_order(self):
        self.assertEqual(self.refusal_of(register(state=State.RUNNING, identity=bytes(16))), Refusal.WRONG_STATE)
        self.assertEqual(self.refusal_of(register(identity=bytes(16), version=(2, 0))), Refusal.UUID_MISMATCH)
        self.assertEqual(self.refusal_of(register(version=(1, 1), mode=0)), Refusal.VERSION)
        self.assertEqual(self.refusal_of(register(mode=0)), Refusal.OP_MODE)

    def test_only_a_register_with_number_0_is_heard(self):
        device = Played().device
        for message in (register(number=1), request("INF_state", 0), b"", b"\x01", bytes(1025)):
            self.assertEqual(device.on_datagram(MASTER, message), [])

    def test_the_master_and_its_id_are_kept(self):
        device = Played().register().device
        self.assertEqual(device.on_datagram(STRANGER, request("INF_state", 1)), [])
        self.assertEqual(device.on_datagram(MASTER, request("INF_state", 1, receiver=3)), [])
        self.assertEqual(device.on_datagram(MASTER, request("INF_state", 1))[0][1][0], 0xb2)


class Numbers(unittest.TestCase):
    def test_the_window(self):
        device = Played().register().device
        first = device.on_datagram(MASTER, request("CFG_clear", 1))
        self.assertEqual(device.on_datagram(MASTER, request("INF_state", 1)), first)
        self.assertEqual(device.on_datagram(MASTER, request("INF_state", 0)), [])
        for number in (3, 2 + 32767):
            nack = struct.pack("<BHBHH", 0xb1, number, 2, 2, Refusal.SEQUENCE)
            self.assertEqual(device.on_datagram(MASTER, request("INF_state", number)), [(MASTER, nack)])
        self.assertEqual(device.on_datagram(MASTER, request("INF_state", 2 + 32768)), [])

    def test_numbers_go_round(self):
        played = Played().register()
        for _ in range(65536):
            answer = played.ask("INF_error")
        self.assertEqual((answer[0], played.number, played.device.expected), (0xb3, 1, 1))

    def test_the_last_answer_is_given_again_after_the_end(self):
        played = Played().register()
        played.change("STC_deregister")
        self.assertTrue(played.device.is_over())
        again = played.device.on_datagram(MASTER, request("STC_deregister", 1, State.CONFIGURATION))
        self.assertEqual(again, [(MASTER, struct.pack("<BHB", 0xb0, 1, 2))])
        self.assertEqual(played.device.on_datagram(MASTER, request("INF_state", 2)), [])


class Settings(unittest.TestCase):
    def setUp(self):
        self.played = Played().register()

    def test_refusals_of_the_wiring(self):
        code = self.played.code_of
        self.assertEqual(code("CFG_time_res", 1, 100), Refusal.NOT_SUPPORTED)
        self.assertEqual(code("CFG_input", 17, 0, 2, 6), Refusal.UNKNOWN_VR)
        self.assertEqual(code("CFG_input", 17, 1, 1, 5), Refusal.TYPE_MISMATCH)
        self.assertEqual(code("CFG_input", 17, 1, 1, 6), Refusal.POSITION)
        self.assertEqual(code("CFG_input", 17, 0, 1, 6), 0)
        self.assertEqual(code("CFG_input", 18, 0, 1, 6), Refusal.POSITION)
        self.assertEqual(code("CFG_output", 2, 0, 1), Refusal.UNKNOWN_VR)
        self.assertEqual(code("CFG_output", 2, 1, 2), Refusal.POSITION)
        self.assertEqual(code("CFG_output", 17, 0, 2), 0)
        self.assertEqual(code("CFG_steps", 3, 2), Refusal.NOT_SUPPORTED)
        self.assertEqual(code("CFG_steps", 17, 1001), Refusal.NOT_SUPPORTED)
        self.assertEqual(code("CFG_steps", 17, 1000), 0)

    def test_refusals_of_other_ends(self):
        code = self.played.code_of
        ip = b"\x01\x00\x00\x7f"
        self.assertEqual(code("CFG_source_network_information", 17, 1, 9001, ip), Refusal.NOT_SUPPORTED)
        self.assertEqual(code("CFG_source_network_information", 17, 4, 9001, ip), Refusal.POSITION)
        self.assertEqual(code("CFG_input", 17, 0, 1, 6), 0)
        self.assertEqual(code("CFG_source_network_information", 17, 4, 9001, ip), 0)
        self.assertEqual(code("CFG_source_network_information", 17, 4, 9001, ip), Refusal.POSITION)
        self.assertEqual(code("CFG_target_network_information", 17, 0, 9001, ip), Refusal.POSITION)

    def test_eighteen_output_ids_and_nine_positions(self):
        for number in range(17):
            self.assertEqual(self.played.code_of("CFG_output", number, 0, 2), 0)
        self.assertEqual(self.played.code_of("CFG_output", 17, 0, 2), Refusal.NOT_SUPPORTED)
        for position in range(1, 8):
            self.assertEqual(self.played.code_of("CFG_output", 0, position, 2), 0)
        self.assertEqual(self.played.code_of("CFG_output", 0, 8, 2), Refusal.POSITION)

    def test_parameters(self):
        ask, device = self.parameter, self.played.device
        self.assertEqual(ask(1, 7, struct.pack("<q", 5)), Refusal.UNKNOWN_VR)
        self.assertEqual(ask(0, 6, struct.pack("<i", 5)), Refusal.TYPE_MISMATCH)
        self.assertEqual(ask(0, 7, struct.pack("<q", -5)), Refusal.VALUE_RANGE)
        self.assertEqual(ask(0, 7, struct.pack("<q", 5)), 0)
        self.assertEqual(device.slave.parameters, [5])
        self.assertEqual(self.played.code_of("CFG_clear"), 0)
        self.assertEqual(device.slave.parameters, [131072])

    def parameter(self, vr, kind, value):
        message = request("CFG_parameter", self.played.number, vr, kind) + value
        answer = self.played.device.on_datagram(MASTER, message)[0][1]
        self.played.number += 1
        return struct.unpack_from("<H", answer, 6)[0] if answer[0] == 0xb1 else 0

    def test_what_is_not_supported_comes_before_the_state(self):
        played = Played().running()
        self.assertEqual(played.code_of("CFG_scope", 2, 0), Refusal.NOT_SUPPORTED)
        self.assertEqual(played.code_of("CFG_clear"), Refusal.WRONG_STATE)

    def test_nothing_is_prepared_that_is_not_complete(self):
        self.assertEqual(self.played.code_of("STC_prepare", State.CONFIGURATION), Refusal.INCOMPLETE_CONFIG)
        self.played.code_of("CFG_time_res", 1, 1000)
        self.assertEqual(self.played.code_of("STC_prepare", State.CONFIGURATION), 0)


class Runs(unittest.TestCase):
    def test_changes_that_are_refused(self):
        played = Played().configured()
        self.assertEqual(played.code_of("STC_prepare", State.PREPARED), Refusal.WRONG_STATE)
        self.assertEqual(played.code_of("STC_run", State.CONFIGURATION, 0), Refusal.WRONG_STATE)
        played.change("STC_prepare")
        played.change("STC_configure")
        self.assertEqual(played.code_of("STC_run", State.CONFIGURED, 0), Refusal.WRONG_STATE)
        played.change("STC_initialize")
        played.change("STC_send_outputs")
        self.assertEqual(played.code_of("STC_initialize", State.CONFIGURED), Refusal.WRONG_STATE)
        self.assertEqual(played.code_of("STC_run", State.CONFIGURED, 5), Refusal.VALUE_RANGE)
        played.change("STC_run", 0)
        self.assertEqual(played.code_of("STC_do_step", State.RUNNING, 2), Refusal.BAD_STEPS)
        self.assertEqual(played.code_of("STC_do_step", State.RUNNING, 1), Refusal.INPUTS_MISSING)

    def test_a_step(self):
        played = Played().running()
        played.feed(0, 21)
        sends = played.step()
        self.assertEqual(sends[1], (MASTER, data(1, 2, struct.pack("<h", 42))))
        self.assertEqual(sends[2], (MASTER, bytes([0xe0, 2, State.RUNNING])))

    def test_data_that_is_not_kept(self):
        played = Played().running()
        right = data(0, 17, struct.pack("<i", 3))
        played.device.on_datagram(STRANGER, right)
        for message in (data(1, 17, right[5:]), data(0, 16, right[5:]), right + b"\0", right[:-1]):
            played.device.on_datagram(SOURCE, message)
        self.assertFalse(played.device.wiring.is_ready(0))
        played.feed(0, 3)
        played.feed(0, 4)
        self.assertEqual(played.device.wiring.input_values(), [3])

    def test_an_interval(self):
        played = Played().configured()
        self.assertEqual((played.code_of("CFG_steps", 17, 2), played.code_of("CFG_steps", 2, 2)), (0, 0))
        played.started()
        played.feed(0, 1)
        self.assertEqual([to_kind(played.step()), to_kind(played.step())], [[0xe0, 0xe0], [0xe0, 0xf0, 0xe0]])
        self.assertEqual(played.code_of("STC_do_step", State.RUNNING, 1), Refusal.INPUTS_MISSING)

    def test_numbers_of_data_go_on_after_a_reset(self):
        played = Played().running()
        played.feed(0, 1)
        played.step()
        played.change("STC_stop")
        self.assertEqual(played.code_of("STC_reset", State.STOPPED), 0)
        self.assertEqual((played.device.steps, played.device.wiring.input_values()), (0, [0]))
        played.change("STC_prepare")
        played.change("STC_configure")
        played.change("STC_initialize")
        self.assertEqual(played.change("STC_send_outputs")[0], (MASTER, data(2, 2, b"\0\0")))

    def test_micro_steps_come_from_the_head(self):
        played = Played(head="micro 3\n").running()
        played.device.slave.parameters[0] -= 1
        played.feed(0, 0)
        self.assertEqual(played.step()[1][1][5:], struct.pack("<h", 3))


def to_kind(sends):
    return [message[0] for _, message in sends]


class Faults(unittest.TestCase):
    def told(self, played):
        self.assertEqual(played.device.on_turn(), [(MASTER, bytes([0xe0, 2, State.ERROR_RESOLVED]))])
        self.assertEqual(played.code_of("CFG_clear"), Refusal.IN_ERROR_STATE)
        self.assertEqual(played.code_of("STC_stop", State.ERROR_RESOLVED), Refusal.IN_ERROR_STATE)
        return struct.unpack_from("<H", played.ask("INF_error"), 4)[0]

    def test_faults_of_a_step(self):
        for made, fault in ((OverflowError(), Fault.MODEL_OVERFLOW), (ZeroDivisionError(), Fault.DIVIDE_BY_ZERO),
                            (ModelFault(), Fault.OUT_OF_RANGE)):
            played = Played().running()
            played.device.slave.step = raising(made)
            played.feed(0, 1)
            self.assertEqual(played.change("STC_do_step", 1), [(MASTER, bytes([0xe0, 2, State.ERROR_HANDLING]))])
            self.assertEqual((self.told(played), played.device.steps), (fault, 0))

    def test_an_output_outside_its_type(self):
        played = Played().running()
        played.feed(0, 16384)
        played.change("STC_do_step", 1)
        self.assertEqual(self.told(played), Fault.OUT_OF_RANGE)

    def test_outputs_are_whole_and_as_many_as_ports(self):
        for outputs in ([0.5], [], [1, 2]):
            played = Played().running()
            played.device.slave.step = lambda inputs, micro, outputs=outputs: outputs
            played.feed(0, 1)
            self.assertEqual(played.code_of("STC_do_step", State.RUNNING, 1), 0)
            self.assertRaises(TypeError, played.device.on_turn)

    def test_the_heartbeat(self):
        played = Played(extra="heartbeat 3\n").register()
        self.assertEqual(played.device.on_turn() + played.device.on_turn(), [])
        self.assertEqual(played.device.on_turn(), [(MASTER, bytes([0xe0, 2, State.ERROR_HANDLING]))])
        self.assertEqual(self.told(played), Fault.HEARTBEAT_MISSED)
        for _ in range(1000):
            self.assertFalse(played.device.is_over())
            played.device.on_turn()
        self.assertTrue(played.device.is_over())

    def test_a_deregister_ends_a_slave_in_error(self):
        played = Played(extra="heartbeat 1\n").register()
        played.device.on_turn()
        self.assertEqual(played.code_of("STC_deregister", State.ERROR_HANDLING), Refusal.IN_ERROR_STATE)
        played.device.on_turn()
        self.assertEqual(played.code_of("STC_deregister", State.ERROR_RESOLVED), 0)


def raising(error):
    def step(inputs, micro):
        raise error
    return step


class Logs(unittest.TestCase):
    def test_kept_entries(self):
        played = Played().register()
        self.assertEqual(played.code_of("CFG_logging", 0, 4, 0), Refusal.VALUE_RANGE)
        played = Played().configured()
        self.assertEqual(played.code_of("CFG_logging", 1, 3, 0), 0)
        played.change("STC_prepare")
        answer = played.ask("INF_log", 1, 1)
        self.assertEqual(answer[4:], struct.pack("<IBBBI", 0, 1, 3, State.PREPARING, 0))
        self.assertEqual(played.ask("INF_log", 1, 9)[4:], struct.pack("<IBBBI", 1, 1, 2, State.PREPARED, 0))
        self.assertEqual(played.ask("INF_log", 1, 9)[4:], b"")
        self.assertEqual(played.code_of("INF_log", 0, 9), Refusal.VALUE_RANGE)

    def test_sixty_four_entries_are_kept(self):
        played = Played().configured()
        played.code_of("CFG_logging", 2, 2, 0)
        played.started()
        for _ in range(66):
            played.code_of("STC_do_step", State.RUNNING, 1)
        entries = played.ask("INF_log", 2, 255)[4:]
        self.assertEqual((len(entries), struct.unpack_from("<I", entries)[0]), (64 * 11, 2))

    def test_sent_entries(self):
        played = Played().configured()
        played.code_of("CFG_logging", 0, 3, 1)
        played.started()
        played.feed(0, 2)
        sends = [message for _, message in played.change("STC_do_step", 1)]
        step = struct.pack("<BBBB", 0xe1, 2, 2, 3) + struct.pack("<IBI", 0, 0, 1)
        state = struct.pack("<BBBB", 0xe1, 2, 1, 2) + struct.pack("<IBI", 11, State.COMPUTED, 1)
        self.assertEqual(sends, [bytes([0xe0, 2, State.COMPUTED]), step, state])


class SlowModels(unittest.TestCase):
    def test_a_slow_step_is_answered_meanwhile(self):
        class Slow(Doubler):
            slow = True

        played = Played(make=Slow).running()
        played.feed(0, 5)
        self.assertEqual(played.code_of("STC_do_step", State.RUNNING, 1), 0)
        for turns in range(100000):
            if played.device.on_turn():
                break
            self.assertEqual(played.ask("INF_state")[4], State.COMPUTING)
        self.assertEqual((played.device.state, played.device.outputs), (State.COMPUTED, [10]))


if __name__ == "__main__":
    unittest.main()
