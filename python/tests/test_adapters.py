"""The parts of `tibzharuk trim` that are about adapters, without any other program."""

import gzip
import os
import threading

import pytest

from tibzharuk.trim import adapters, arguments, fasta, known_adapters, report, whole_lines
from tibzharuk.trim.faults import Fault

READ = b"@r\nACGT\n+\nIIII\n"


class Files:
    @pytest.fixture(autouse=True)
    def in_a_folder(self, tmp_path):
        self.folder = str(tmp_path)

    def put(self, name, data):
        name = os.path.join(self.folder, name)
        with open(name, "wb") as file:
            file.write(data)
        return name


class TestFasta(Files):
    def test_entries(self):
        name = self.put("a.fa", b"#x\n>one more\nAC\nGT\n\n>\n>three\r\nTT\r\n")
        assert [tuple(each) for each in fasta.read_fasta(name)] == [("one", "ACGT"), ("", ""), ("three", "TT")]
        packed = self.put("a.fa.gz", gzip.compress(b">x\nA"))
        assert fasta.read_fasta(packed) == [("x", "A")]

    @pytest.mark.parametrize("one, other", (
        ("AACGT", "ACGTT"), ("acNg", "cNgt"), ("", ""), ("ARYSWKMBDHVN", "NBDHVKMWSRYT")))
    def test_other_strand(self, one, other):
        assert fasta.other_strand(one) == other

    @pytest.mark.parametrize("given", ("none.fa", "ACGT,", "ACGT,A,C", ""))
    def test_sequences_and_names(self, given):
        assert adapters.adapter_options(["ACGT", "ACGT,tt"]) == ["-a", "ACGT", "-A", "ACGT", "-a", "ACGT", "-A", "tt"]
        assert adapters.adapter_options(["Nextera"]) == ["-a", "nextera_1=CTGTCTCTTATACACATCT", "-A", "nextera_2=CTGTCTCTTATACACATCT"]
        assert adapters.adapter_options([]) == []
        with pytest.raises(Fault) as caught:
            adapters.adapter_options([given])
        assert caught.value.status == 2

    @pytest.mark.parametrize("bases, wanted", (
        ({"PrefixA/1": "AACC", "PrefixA/2": "GTTT"}, "AAAC,GGTT"),
        ({"PrefixA/1": "AACC", "PrefixA/2": "GTTT", "PrefixB/1": "AC", "PrefixB/2": "GG"}, "AAAC,GGTT --adapters CC,GT"),
        ({"PrefixA/1": "AACC", "PrefixB/2": "GTTT"}, "truseq, nextera or smallrna, or a FASTA file of the 3' adapters"),
    ))
    def test_the_files_of_trimmomatic(self, bases, wanted):
        assert adapters.instead_of([fasta.Entry(*each) for each in bases.items()]) == wanted


class TestKnownAdapters(Files):
    def known(self, *names):
        return known_adapters.word_on_adapters([[self.put(*each) if isinstance(each, tuple) else each for each in names]])

    @pytest.mark.parametrize("number, wanted", ((0, None), (1, None), (2, "2.0 % of the first 100 pairs"), (50, "50 % of the first 100 pairs")))
    def test_the_share_of_pairs(self, number, wanted):
        held = READ.replace(b"ACGT", b"ACGTAGATCGGAAGAGCA").replace(b"IIII", 18 * b"I")
        got = self.known(("f", number * held + (100 - number) * READ), ("r", 100 * READ))
        assert (got and got.partition(" hold")[0]) == wanted

    @pytest.mark.parametrize("data", (b"", b"\n", b">r\nAGATCGGAAGAGCA\n", b"@r\nAGATCG\nGAAGAGCA\n+\nIIIIII\nIIIIIIII\n", b"\x1f\x8b\x08damaged", b"@r\nAGATCGGAAGAG"))
    def test_what_is_not_looked_at(self, data):
        assert self.known(("f", data), ("r", data)) is None

    def test_what_is_not_looked_at_too(self):
        assert self.known("/dev/null") is None

    @pytest.mark.parametrize("size", (999, 1 << 16, 1 << 20))
    def test_members_of_a_file(self, size):
        text = b"\n\n" + 5000 * READ.replace(b"r", 50 * b"r")
        packed = self.put("f.gz", b"".join(gzip.compress(text[start:start + size], 0) for start in range(0, len(text), size)) + bytes(9))
        for name in packed, self.put("f", text), self.put("g", text[:-1]):
            assert known_adapters.first_reads(name, 4000) == 4000 * [b"ACGT"]
            assert known_adapters.first_reads(name, 9000) == 5000 * [b"ACGT"]

    @pytest.mark.parametrize("most, reads", ((len(READ) - 1, 0), (len(READ), 1), (3 * len(READ) - 1, 2), (3 * len(READ), 3)))
    def test_the_most_bytes_of_a_text(self, most, reads, monkeypatch):
        monkeypatch.setattr(known_adapters, "MOST_BYTES", most)
        assert known_adapters.first_reads(self.put("f", 9 * READ), 9) == reads * [b"ACGT"]

    @pytest.mark.parametrize("number, wanted", (
        (0, ("none", "no known adapter is in more than 1 % of the first 100 pairs")),
        (1, ("none", "no known adapter is in more than 1 % of the first 100 pairs")),
        (2, ("nextera", "2.0 % of the first 100 pairs hold it")), (100, ("nextera", "100 % of the first 100 pairs hold it")),
    ))
    def test_what_auto_takes(self, number, wanted):
        held = READ.replace(b"ACGT", b"CTGTCTCTTATACACATCT").replace(b"IIII", 19 * b"I")
        forward, reverse = self.put("f", 100 * READ), self.put("r", number * held + (100 - number) * READ)
        assert known_adapters.taken_by_auto([[forward, reverse]]) == wanted

    @pytest.mark.parametrize("data, status", ((b"@r\nAC\nGT\n+\nII\nII\n", 3), (b"x", 3), (None, 2)))
    def test_what_auto_refuses(self, data, status):
        name = self.put("f", data) if data else "/dev/null"
        with pytest.raises(Fault) as caught:
            known_adapters.taken_by_auto([[name, name]])
        assert caught.value.status == status

    def test_auto_without_reads(self):
        name = self.put("f", b"\n")
        assert known_adapters.taken_by_auto([[name, name]])[0] == "none"

    @pytest.mark.parametrize("given, name, left, uses", (
        ("auto", "truseq", ["truseq"], True), ("Auto", "none", [], False), ("auto ACGT", "none", ["ACGT"], True),
        ("ACGT auto auto", "nextera", ["ACGT", "nextera"], True), ("truseq auto", "truseq", ["truseq"], True),
    ))
    def test_what_is_taken(self, given, name, left, uses):
        got = arguments.Arguments([word for each in given.split() for word in ("--adapters", each)])
        assert got.asks_auto() and got.uses_cutadapt()
        got.take(name)
        assert (got.adapters, got.adapters_auto, got.uses_cutadapt(), got.asks_auto()) == (left, name, uses, False)
        assert got.names_adapters()

    def test_reports_of_cutadapt_are_made_though_none_are_taken(self):
        got = arguments.Arguments("--adapters auto --cutadapt-log x".split())
        got.take("none")
        assert got.uses_cutadapt() and not got.removes()

    def test_lanes(self):
        one, other = self.put("a", 3 * READ), self.put("b", 4 * READ)
        mates = (b"ACGT", b"ACGT")
        for lanes, pairs in (([[one, one], [other, other]], 7), ([[one, other]], 3), ([[one], [other]], 3), ([], 0)):
            assert known_adapters.first_pairs(lanes) == pairs * [mates]


class TestWholeLines:
    def copied(self, data):
        """What `copy` writes, and whether it returns that it is good."""
        out, given = os.pipe(), os.pipe()
        got, kept = bytearray(), os.dup(1)

        def write():
            for start in range(0, len(data), 5000):
                os.write(given[1], data[start:start + 5000])
            os.close(given[1])

        def read():
            while True:
                part = os.read(out[0], 1 << 16)
                if not part:
                    return
                got.extend(part)
        threads = [threading.Thread(target=each) for each in (write, read)]
        os.dup2(out[1], 1)
        os.close(out[1])
        for each in threads:
            each.start()
        try:
            is_good = whole_lines.copy(given[0])
        finally:
            os.dup2(kept, 1)
            os.close(kept)
        for each in threads:
            each.join()
        os.close(given[0])
        os.close(out[0])
        return bytes(got), is_good

    def test_empty_lines_and_line_ends(self):
        empty = b"@e\n\n+\n\n"
        for data, wanted in (
            (b"", b""), (b"\n\r\n", b""), (READ, READ), (READ[:-1], READ), (READ + b"\n\n", READ), (b"\n\r\n" + READ, READ),
            (READ + empty, READ + empty), (READ + empty[:-1], READ + empty), (READ + empty + b"\n\n", READ + empty),
            (b"@r\nA\n+\n+", b"@r\nA\n+\n+\n"), (b"@r\nA\n+\n+\n\n", b"@r\nA\n+\n+\n"),
            (2000 * READ + 50000 * b"\n", 2000 * READ), (50000 * b"\n" + 2000 * READ, 2000 * READ),
        ):
            assert self.copied(data) == (wanted, True), data[-30:]

    def test_an_empty_line_in_the_middle_stays(self):
        got, _ = self.copied(READ + 50000 * b"\n" + READ)
        assert (got[:len(READ) + 1], got[-len(READ) - 1:]) == (READ + b"\n", b"\n" + READ)

    @pytest.mark.parametrize("data, is_good", ((READ, True), (b"@r\nAC\nGT\n+\nII\nII\n", False), (b"@r\n+\n" + READ, False), (b"x\n" + READ, True), (b"@r\nA\nA\nA\n", True)))
    def test_wrapped_records(self, data, is_good):
        assert self.copied(data)[1] == is_good, data


class TestReport:
    @pytest.mark.parametrize("outputs, name", (
        ({"html": "out/s1.html"}, "s1"), ({"html": "s1.html.gz"}, "s1"), ({"html": ".html"}, ".html"), ({"html": "s1"}, "s1"),
        ({"report": "a.json", "html": "b.html"}, "a"), ({"report": "/dev/stdout", "html": "b.htm"}, "b"), ({"cutadapt-log": "c.log"}, "c"),
        ({"report": "a.json.gz"}, "a"), ({"report": "a.txt"}, "a.txt"), ({"paired1": "p.fq"}, ""),
    ))
    def test_the_name_of_the_sample(self, outputs, name):
        assert report.sample_name(outputs) == name
