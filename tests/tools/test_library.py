"""Tests of the library for C (crates/pgn_c): its header, and the example in C."""
import glob
import os
import re
import shutil
import subprocess
import unittest

from documents import printed_by
from programs import (ROOT, need, need_library, need_program, new_folder, output_of, run, text_of,
                      write_file)
from small_repository import Repository

CRATE = ROOT + "/crates/pgn_c"


class Builder(Repository, unittest.TestCase):
    """examples/build, in a small repository whose commands build nothing real."""

    script = "examples/build"

    def setUp(self):
        super().setUp()
        shutil.copytree(ROOT + "/examples", self.folder + "/examples",
                        ignore=shutil.ignore_patterns("out"))

    def test_either_build(self):
        for words in ([], ["--proved"], ["--cargo"]):
            self.said(*words, "to", cwd=self.folder)
            self.assertEqual(os.listdir(self.folder + "/to"), ["pgn_check"])

    def test_without_cargo_and_the_toolchain(self):
        self.remove_commands("cargo", "rt")
        told = self.said("to", cwd=self.folder, status=127)
        self.assertIn("so the library cannot be built", told)
        self.assertFalse(os.path.exists(self.folder + "/to"))

    def test_without_a_compiler(self):
        self.said("to", cwd=self.folder, env={"CC": "/missing/cc"}, status=127)


STRUCTS = {"PgnResult": "pgn_result", "PgnText": "pgn_text", "PgnMove": "pgn_move",
           "PgnPlies": "pgn_plies", "PgnGame": "pgn_game", "PgnTag": "pgn_tag",
           "PgnItems": "pgn_item_lines", "PgnExplanation": "pgn_explanation",
           "PgnBadGame": "pgn_bad_game", "PgnSection": "pgn_section", "PgnNumber": "pgn_number"}
# A slice is a pointer and a length, and a struct is passed by its address.
C_TYPES = {"u8": "uint8_t", "u32": "uint32_t", "u64": "uint64_t", "usize": "size_t",
           "&[u8]": "const void *, size_t", "&mut [u8]": "uint8_t *, size_t", **STRUCTS,
           **{"&mut " + name: it + " *" for name, it in STRUCTS.items()}}


def bare_header():
    """The header without comments."""
    return re.sub(r"/\*.*?\*/", " ", text_of(CRATE, "pgn.h"), flags=re.S)


def sources():
    return "".join(map(text_of, glob.glob(CRATE + "/src/*.rt")))


def exported():
    """Name, result and parameter types, as C has them, of each export."""
    rows = re.findall(
        r'#\[unsafe\(no_mangle\)\]\s*pub (?:unsafe )?extern "C" fn (\w+)\((.*?)\) -> (\w+)',
        sources(), re.S)
    found = {}
    for name, parameters, result in rows:
        types = [C_TYPES[it] for it in re.findall(r": ([^,]*[^,\s])", parameters)]
        found[name] = (C_TYPES[result], ", ".join(types))
    return found


def declared():
    """The same of the header."""
    rows = re.findall(r"^(\w+)\s+(\w+)\((.*?)\);", bare_header(), re.S | re.M)
    return {name: (result, types_of(parameters.split(","))) for result, name, parameters in rows}


def types_of(parameters):
    """The types of parameters of C."""
    return ", ".join(re.sub(r"\w+$", "", it.strip()).strip() for it in parameters if it != "void")


def rust_structs():
    """The fields of each struct that crosses, in order, as C has them."""
    rows = re.findall(r"#\[repr\(C\)\]\s*#\[derive\([^)]*\)\]\s*pub struct (\w+) \{(.*?)\n\}",
                      sources(), re.S)
    structs = {}
    for name, body in rows:
        fields = structs[STRUCTS[name]] = []
        for field, kind in re.findall(r"^    pub (\w+): ([^,]+),", body, re.M):
            kind, size = re.fullmatch(r"\[?(\w+)(?:; (\d+)\])?", kind).groups()
            fields.append("%s %s%s" % (C_TYPES[kind], field, "[%s]" % size if size else ""))
    return structs


def c_structs():
    rows = re.findall(r"typedef struct (\w+) \{(.*?)\} (\w+);", bare_header(), re.S)
    return {name: [" ".join(it.split()) for it in body.split(";") if it.strip()]
            for tag, body, name in rows if tag == name}


class HeaderTest(unittest.TestCase):
    def test_functions(self):
        self.assertEqual(declared(), exported())
        self.assertEqual(len(exported()), 14)

    def test_version(self):
        """That of the program, as text and as a number."""
        text, number = re.search(r'#define PGN_VERSION "(.*)"\n#define PGN_VERSION_NUMBER (\d+)\n',
                                 text_of(CRATE, "pgn.h")).groups()
        major, minor, patch = map(int, text.split("."))
        said = run([need_program(), "--version"]).stdout.decode()
        self.assertEqual(said, "pgn_tool %s\n" % text)
        self.assertEqual(int(number), 10000 * major + 100 * minor + patch)

    def test_structs(self):
        self.assertEqual(c_structs(), rust_structs())
        self.assertEqual(sorted(c_structs()), sorted(STRUCTS.values()))

    def test_statuses(self):
        texts = text_of(CRATE, "src/pgn_result.rt") + text_of(CRATE, "src/game_result.rt")
        consts = dict(re.findall(r"pub const (\w+): u32 = (\d+);", texts))
        self.assertEqual(sorted(consts), ["BAD_PLACE", "FAULT", "FULL", "MORE", "NO_GAME",
                                          "NO_MODE", "OK"])
        names = dict(re.findall(r"PGN_(\w+) = (\d+)", bare_header()))
        self.assertEqual({name: names.get(name) for name in consts}, consts)
        self.assertEqual((names["FULL_FORMAT"], names["REDUCED_FORMAT"]), ("0", "1"))
        self.assertEqual([names["ITEM_" + it] for it in ("SAN", "UCI", "FEN", "KEY")],
                         ["1", "2", "4", "8"])

    def test_symbols_of_the_shared_library(self):
        need("nm", "readelf")
        for build in ("--cargo", "--proved"):
            with self.subTest(build):
                shared = need_library(build)[:-2] + ".so"
                rows = run(["nm", "-D", "--defined-only", shared]).stdout.decode().split("\n")
                self.assertEqual({it.split()[-1] for it in rows if it}, set(exported()))
                said = run(["readelf", "-d", shared]).stdout
                minor = re.search(r'PGN_VERSION "(\d+\.\d+)\.', text_of(CRATE, "pgn.h"))[1]
                self.assertIn(b"Library soname: [libpgn_c.so.%s]" % minor.encode(), said)

    def test_symbols(self):
        archive = need_library("--proved")
        need("nm")
        rows = run(["nm", archive]).stdout.decode().split("\n")
        defined = {it.split()[-1] for it in rows if " T " in it}
        wanted = {it.split()[-1] for it in rows if " U " in it}
        self.assertEqual(defined, set(exported()))
        # nothing that changes between calls
        self.assertEqual([it for it in rows if re.search(r" [BbCDdSs] ", it)], [])
        # what it calls neither allocates nor reads or writes a file
        self.assertLessEqual(wanted, {"memcpy", "memmove", "memset"})

    def test_compiles_as_c_and_as_cpp(self):
        """A text needs no cast, whatever it points to."""
        need("cc", "c++")
        text = ('#include "pgn.h"\n'
                "uint64_t games(const char *text, const uint8_t *bytes, unsigned char *other) {\n"
                "    return pgn_check(text, 1).games + pgn_check(bytes, 1).games\n"
                '        + pgn_check(other, 1).games + pgn_check("*", 1).games;\n'
                "}\n")
        for words in (["cc", "-std=c99", "-x", "c"], ["c++", "-std=c++11", "-x", "c++"]):
            words += ["-pedantic", "-Wall", "-Wextra", "-Werror", "-fsyntax-only", "-I" + CRATE]
            output_of(run([*words, CRATE + "/pgn.h"]))
            output_of(run([*words, "-"], input=text.encode()))


def c_program(sample):
    """A sample that is a program, or one whose lines belong into main."""
    lines = sample.split("\n")
    if "main(" in sample:
        return sample
    included = [it for it in lines if it.startswith("#include")]
    return "\n".join([*included, "int main(void) {", *(it for it in lines if it not in included),
                      "return 0;", "}", ""])


class CExample:
    @classmethod
    def setUpClass(cls):
        cls.library, cls.folder = need_library(cls.build), new_folder(cls)
        output_of(run(["examples/build", cls.build, cls.folder]), err=None)
        cls.pgn_check = cls.folder + "/pgn_check"

    def run_sample(self, text):
        program = self.folder + "/sample"
        write_file(program + ".c", c_program(text))
        words = ["cc", "-O2", "-Wall", "-Werror", "-I" + CRATE, program + ".c", self.library, "-o",
                 program]
        # a few lines need not use all that they say
        output_of(run(words if "main(" in text else [*words, "-Wno-unused-variable"]))
        return run([program], stdin=subprocess.DEVNULL)

    def test_samples_of_the_documents(self):
        moves = rb"(?m)^1\. e4 e5 2\. Bc4 Nc6 3\. Qh5 Nf6 .*4\. Qxf7# (\*|1-0)$"
        self.assertRegex(printed_by(self, "c", self.run_sample), moves)

    def test_what_it_prints(self):
        for name, status, said in (("no-such-move", 1, b"fault 34 at byte 77: move is not legal\n"),
                                   ("annotated", 0, b"games: 1, plies: 7\n")):
            ran = run([self.pgn_check, "examples/%s.pgn" % name])
            self.assertEqual(output_of(ran, status), said)

    def test_exports_as_the_program(self):
        for file in sorted(glob.glob(ROOT + "/examples/*.pgn")):
            theirs = run([need_program(), "export", file])
            ours = run([self.pgn_check, "--export", file])
            self.assertEqual((ours.returncode, ours.stdout), (theirs.returncode, theirs.stdout),
                             file)

    def test_small_stack(self):
        output_of(run(["sh", "-c", "ulimit -s 256 && exec \"$@\"", "sh", self.pgn_check,
                       "--export", "examples/from-a-position.pgn"]))

    def test_valgrind(self):
        need("valgrind")
        output_of(run(["valgrind", "--quiet", "--error-exitcode=9", "--leak-check=full",
                       self.pgn_check, "--export", "examples/annotated.pgn"]))


class CExampleOfCargo(CExample, unittest.TestCase):
    build = "--cargo"


class CExampleOfProved(CExample, unittest.TestCase):
    build = "--proved"
