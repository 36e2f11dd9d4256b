"""What portable.py makes of functions as wasm2c writes them, and at which it stops."""

import pathlib
import sys
import unittest

sys.path.insert(0, str(pathlib.Path(__file__).resolve().parent.parent))
sys.dont_write_bytecode = True

import portable  # noqa: E402
from regions import Function, Region, either, functions_of  # noqa: E402

READ = """  w2c_j0 = w2c_p0;
  w2c_i0 = (u32)(w2c_j0);
  w2c_i0 = i32_load8_u(&instance->w2c_memory, (u64)(w2c_i0) + 8u);
"""
NEXT = READ.replace("8u);", "11u);")
FRAME = """  w2c_j0 = instance->w2c_g0;
  w2c_j1 = 32ull;
  w2c_j0 -= w2c_j1;
  w2c_l1 = w2c_j0;
  instance->w2c_g0 = w2c_j0;
  w2c_j0 = w2c_l1;
  w2c_l2 = w2c_j0;
"""
STORE = """  w2c_j0 = w2c_l2;
  w2c_j1 = 16ull;
  w2c_j0 += w2c_j1;
  w2c_i0 = (u32)(w2c_j0);
  w2c_j1 = 7ull;
  i64_store(&instance->w2c_memory, (u64)(w2c_i0) + 8, w2c_j1);
"""
OTHER = """  w2c_j0 = w2c_p0;
  w2c_l2 = w2c_j0;
"""


STACK = Region(frozenset({"stack"}), 0, 16)
STATE = Region(frozenset({"state"}), 0, 16)
KEPT = Region(frozenset({"read"}), 0, 16)
WRITE = """  w2c_j0 = w2c_p0;
  w2c_i0 = (u32)(w2c_j0);
  w2c_j1 = 7ull;
  i64_store(&instance->w2c_memory, (u64)(w2c_i0) + 8, w2c_j1);
"""


def made(body, *parameters, **options):
    return portable.with_whole_addresses("w2c_f0", Function(body, parameters), **options)


def depth(**bodies):
    return portable.depths({f"w2c_{name}": ("", body) for name, body in bodies.items()})


class Addresses(unittest.TestCase):
    def test_cut_is_undone(self):
        text, counts = made(READ)
        self.assertIn("w2c_i0 = i32_load8_u(&instance->w2c_memory, w2c_j0 + 8u);", text)
        self.assertEqual(counts, [1, 0, 0])

    def test_stops(self):
        for wrong in (
            READ.replace("  w2c_i0 = (u32)(w2c_j0);\n", ""),
            READ.replace("(u32)(w2c_j0);\n", "(u32)(w2c_j0);\n  w2c_i0 = w2c_p1;\n"),
            READ.replace("(u32)(w2c_j0);\n", "(u32)(w2c_j0);\n  w2c_j0 = w2c_p1;\n"),
            "  w2c_i0 = wasm_rt_grow_memory((&instance->w2c_memory), w2c_i0);\n",
            "  w2c_i0 = CALL_INDIRECT(instance->w2c___indirect_function_table, u32 (*)(void*, u32), 0, w2c_i1, w2c_i0);\n",
            "  memory_copy(&instance->w2c_memory, &instance->w2c_memory, w2c_i0, w2c_i1, w2c_i2);\n",
            "  w2c_j0 = f64_load(&instance->w2c_memory, (u64)(w2c_i0));\n",
        ):
            with self.subTest(wrong), self.assertRaises(SystemExit):
                made(wrong)


class Frames(unittest.TestCase):
    def framed(self, body):
        return made(body)[1][1]

    def test_access_in_the_frame(self):
        text, counts = made(FRAME + STORE)
        self.assertIn("  w2c_j0 -= w2c_j1;\n  CHECK_FRAME(w2c_j0, 32);\n", text)
        self.assertIn("known_i64_store(IN_STACK(w2c_j0 + 8u), w2c_j1);", text)
        self.assertEqual(counts, [0, 1, 0])

    def test_access_past_the_frame(self):
        self.assertEqual(self.framed(FRAME + STORE.replace("+ 8", "+ 9")), 0)
        self.assertEqual(self.framed(FRAME + STORE.replace("16ull", "17ull")), 0)
        self.assertEqual(self.framed(FRAME + STORE.replace("+= w2c_j1", "-= w2c_j1")), 0)

    def test_after_another_value(self):
        self.assertEqual(self.framed(FRAME + OTHER + STORE), 0)
        self.assertEqual(self.framed(FRAME + STORE + OTHER), 1)

    def test_a_loop_that_brings_another_value_back(self):
        loop = "  w2c_L3: \n" + STORE + OTHER
        self.assertEqual(self.framed(FRAME + STORE + loop), 2)
        self.assertEqual(self.framed(FRAME + STORE + loop + "    goto w2c_L3;\n"), 1)

    def test_a_loop_that_goes_through_the_frame(self):
        step = "  w2c_j0 = w2c_l2;\n  w2c_j1 = 8ull;\n  w2c_j0 += w2c_j1;\n  w2c_l2 = w2c_j0;\n"
        loop = "  w2c_L3: \n" + STORE.replace("16ull", "0ull") + step + "  if (w2c_i0) {goto w2c_L3;}\n"
        self.assertEqual(self.framed(FRAME + loop), 0)

    def test_frame_that_may_be_jumped_over(self):
        self.assertEqual(self.framed("  if (w2c_i0) {goto w2c_B1;}\n" + FRAME + STORE + "  w2c_B1:;\n" + STORE), 1)

    def test_frame_in_a_block(self):
        self.assertEqual(self.framed("  if (w2c_i0) {\n" + FRAME + "  }\n" + STORE), 0)
        self.assertEqual(self.framed("  if (w2c_i0) {\n" + FRAME + STORE + "  }\n" + STORE), 1)
        self.assertEqual(self.framed(FRAME + "  if (w2c_i0) {\n" + OTHER + "  } else {\n" + STORE + "  }\n" + STORE), 1)

    def test_a_value_on_the_way_of_a_jump(self):
        jump = "  if (w2c_i0) {w2c_j0 = w2c_p0; goto w2c_B1;}\n"
        self.assertEqual(self.framed(FRAME + "  w2c_j0 = w2c_l2;\n" + jump + "  w2c_B1:;\n" + STORE.split("\n", 1)[1]), 0)
        self.assertEqual(self.framed(FRAME + "  w2c_j0 = w2c_l2;\n" + jump.replace("p0", "l2") + "  w2c_B1:;\n" + STORE.split("\n", 1)[1]), 1)

    def test_a_switch(self):
        switch = "  switch (w2c_i0) {\n    case 0: goto w2c_B1;\n    default: goto w2c_B2;\n  }\n  w2c_B1:;\n"
        self.assertEqual(self.framed(FRAME + switch + OTHER + "  w2c_B2:;\n" + STORE), 0)
        self.assertEqual(self.framed(FRAME + switch + STORE + "  w2c_B2:;\n" + STORE), 2)

    def test_access_before_the_frame(self):
        self.assertEqual(self.framed(STORE + FRAME), 0)
        self.assertEqual(self.framed(STORE + FRAME + STORE), 1)

    def test_stops(self):
        for wrong in ("  goto w2c_B1;\n", "  if (w2c_i0) {\n", "  }\n", "  case 0: goto w2c_B1;\n  w2c_B1:;\n", "  while (1) {\n  }\n"):
            with self.subTest(wrong), self.assertRaises(SystemExit):
                made(wrong)


class Parameters(unittest.TestCase):
    def test_in_the_stack(self):
        self.assertIn("known_i64_store(IN_STACK(w2c_j0 + 8u), w2c_j1);", made(WRITE, STACK)[0])

    def test_in_a_state(self):
        text = made(WRITE, STATE)[0]
        self.assertIn("u8 *near_p0 = IN_STATE_WRITTEN(w2c_p0);", text)
        self.assertIn("known_i64_store(near_p0 + 8, w2c_j1);", text)

    def test_in_one_of_both(self):
        self.assertIn("u8 *near_p0 = IN_EITHER_WRITTEN(w2c_p0);", made(WRITE, either(STACK, STATE))[0])
        self.assertIn("const u8 *near_p0 = IN_EITHER(w2c_p0);", made(READ, either(STACK, KEPT))[0])

    def test_too_far(self):
        self.assertEqual(made(WRITE.replace("+ 8", "+ 9"), STATE)[1][1], 0)
        self.assertEqual(made(WRITE, either(STACK, STATE._replace(high=15)))[1][1], 0)

    def test_a_state_that_is_not_written(self):
        self.assertEqual(made(WRITE, KEPT)[1][1], 0)
        self.assertEqual(made(WRITE, either(STATE, KEPT))[1][1], 0)
        self.assertEqual(made(READ, KEPT)[1][1], 1)

    def test_unknown(self):
        self.assertEqual(made(WRITE, either(STATE, None))[1][1], 0)
        self.assertEqual(made(WRITE, either(STATE, 5))[1][1], 0)

    def test_the_least_of_all_callers(self):
        call = FRAME + "  w2c_j0 = w2c_l2;\n  w2c_j1 = {}ull;\n  w2c_j0 += w2c_j1;\n  w2c_f1(instance, w2c_j0);\n"
        bodies = {"w2c_f0": call.format(8), "w2c_f1": WRITE, "w2c_f2": call.format(16)}
        known = functions_of(bodies, {"w2c_f0": (), "w2c_f2": ()})["w2c_f1"].before[0]["p0"]
        self.assertEqual((known.low, known.high, known.root), (-8, 16, "p0"))
        self.assertEqual(functions_of(bodies, {"w2c_f0": (), "w2c_f2": (), "w2c_f1": (None,)})["w2c_f1"].before[0], {})

    def test_those_of_the_calls(self):
        known = portable.parameters_of({name: name for name in (
            "imagesize_type imagesize_size imagesize_probe imagesize_parts_probe imagesize_parts_type imagesize_parts_size imagesize_stream_new "
            "imagesize_stream_push imagesize_stream_finish imagesize_rounds_new imagesize_rounds_supply imagesize_rounds_answer imagesize_spans "
            "imagesize_png_matches imagesize_png_size imagesize_png_parts_size imagesize_type_name imagesize_compression_name "
            "imagesize_container_format imagesize_status_text imagesize_compression_family imagesize_is_block_compressed "
            "imagesize_is_multi_compression_container").split()})
        self.assertEqual(known["imagesize_size"], [None, None, Region(frozenset({"stack"}), -8, 56), Region(frozenset({"stack"}), -16, 48)])
        self.assertEqual(known["imagesize_stream_push"][0], Region(frozenset({"state"}), 0, 1280))
        self.assertEqual(known["imagesize_rounds_answer"][0], Region(frozenset({"read"}), 0, 1280))
        self.assertEqual(known["imagesize_type_name"], [None, None, None, None, Region(frozenset({"stack"}), -40, 24)])
        self.assertEqual(known["imagesize_spans"][2], None)


class Copies(unittest.TestCase):
    COPY = """  w2c_j0 = w2c_p0;
  w2c_i0 = (u32)(w2c_j0);
  w2c_j1 = w2c_p1;
  w2c_i1 = (u32)(w2c_j1);
  w2c_j2 = 16ull;
  w2c_i2 = (u32)(w2c_j2);
  memory_copy(&instance->w2c_memory, &instance->w2c_memory, w2c_i0, w2c_i1, w2c_i2);
"""
    FILL = COPY.replace("memory_copy(&instance->w2c_memory, &instance->w2c_memory, w2c_i0, w2c_i1", "memory_fill(&instance->w2c_memory, w2c_i0, w2c_i1")

    def test_of_a_known_size(self):
        self.assertIn("  COPY(IN_STACK(w2c_j0 + 0u), IN_STACK(w2c_j1 + 0u), 16);", made(self.COPY, STACK, STACK)[0])
        self.assertIn("  memcpy(near_p0 + 0, IN_STACK(w2c_j1 + 0u), 16);", made(self.COPY, STATE, STACK)[0])
        self.assertIn("  memset(near_p0 + 0 + 0, (u8)w2c_i1, 16);", made(self.FILL, STATE)[0])

    def test_that_is_checked(self):
        for parameters in ((KEPT, STACK), (STACK, None), (STACK._replace(high=15), STACK), (STACK, STACK._replace(high=15))):
            with self.subTest(parameters):
                self.assertIn("  memory_copy(&instance->w2c_memory, &instance->w2c_memory, w2c_j0, w2c_j1, w2c_j2);", made(self.COPY, *parameters)[0])
        self.assertIn("  memory_fill(&instance->w2c_memory, w2c_j0, w2c_i1, w2c_j2);", made(self.FILL, KEPT)[0])

    def test_large(self):
        large = STACK._replace(high=1000)
        self.assertIn("memmove(", made(self.COPY.replace("16ull", "1000ull"), large, large)[0])
        self.assertIn("fill(", made(self.FILL.replace("16ull", "1000ull"), large)[0])
        self.assertIn(" + 64, (u8)w2c_i1, 36);", made(self.FILL.replace("16ull", "100ull"), large)[0])

    def test_all_is_checked_for_a_test(self):
        self.assertIn("known_i64_store(SAME(near_p0 + 8, written_at(&instance->w2c_memory, w2c_j0 + 8u, 8)), w2c_j1);", made(WRITE, STATE, checked=True)[0])


class Groups(unittest.TestCase):
    def test_two_reads(self):
        text, counts = made(READ + NEXT)
        self.assertIn("near0 = READ_AT(&instance->w2c_memory, w2c_j0 + 8u - 0u, 4);", text)
        self.assertIn("near_i32_load8_u(&instance->w2c_memory, near0 + 3);", text)
        self.assertEqual(counts, [1, 0, 2])

    def test_the_first_is_not_the_lowest(self):
        self.assertIn("READ_AT(&instance->w2c_memory, w2c_j0 + 11u - 3u, 4);", made(NEXT + READ)[0])

    def test_what_may_not_happen_together(self):
        for between in ("  if (w2c_i0) {goto w2c_B1;}\n", "  w2c_B1:;\n", "  w2c_j0 = w2c_p1;\n  w2c_p0 = w2c_j0;\n", "  if (w2c_i0) {w2c_j0 = w2c_j1; goto w2c_B1;}\n"):
            with self.subTest(between):
                self.assertEqual(made(READ + between + NEXT + ("" if "w2c_B1:" in between else "  w2c_B1:;\n"))[1], [2, 0, 0])

    def test_a_value_that_is_kept(self):
        kept = "  w2c_j0 = w2c_p0;\n  w2c_j1 = w2c_p1;\n  w2c_j0 ^= w2c_j1;\n  w2c_l2 = w2c_j0;\n" + READ.split("\n", 1)[1]
        self.assertEqual(made(kept + NEXT.replace("p0", "l2"))[1], [1, 0, 2])
        self.assertEqual(made(kept + "  w2c_j0 = w2c_p1;\n  w2c_l2 = w2c_j0;\n" + NEXT.replace("p0", "l2"))[1], [2, 0, 0])
        self.assertEqual(made(kept + "  w2c_l2 = 0;\n" + NEXT.replace("p0", "l2"))[1], [2, 0, 0])


class Depths(unittest.TestCase):
    def test_sum(self):
        calls = FRAME + "  w2c_f1(instance);\n  w2c_f2(instance);\n"
        self.assertEqual(depth(f0=calls, f1=FRAME, f2=READ)["w2c_f0"], 64)

    def test_stops(self):
        for wrong in (
            {"f0": "  w2c_f0(instance);\n"},
            {"f0": "  w2c_f1(instance);\n", "f1": "  w2c_f0(instance);\n"},
            {"f0": FRAME + FRAME},
            {"f0": FRAME.replace("w2c_j1 = 32ull;", "w2c_j1 = w2c_p0;")},
            {"f0": "  w2c_j0 = instance->w2c_g0;\n  w2c_l1 = w2c_j0;\n"},
        ):
            with self.subTest(wrong), self.assertRaises(SystemExit):
                depth(**wrong)


if __name__ == "__main__":
    unittest.main()
