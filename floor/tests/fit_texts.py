"""Short texts for the tests of `fit`: a program of parts, each in a line of its own where it is short."""

from dataclasses import dataclass

LOAD = "load { W w; C { ck=0; so=X; } Shift { V { ck=P; si=#; so=#; } } }"
RESET = "C { a=0; b=0; ck=0; si=0; y=X; so=X; io=Z; bus=0000; q=XXXX; }"


@dataclass
class Program:
    """The parts of a text; `pattern` begins in line 18."""

    head: str = ""
    signals: str = "a In; b In; ck In; si In { ScanIn; } y Out; so Out { ScanOut; } io InOut; bus[0..3] In; q[0..3] Out;"
    groups: str = ""
    spec: str = "Category c { per = '100ns'; }"
    period: str = "'per'"
    waves: str = ""
    tables: str = ""
    timing: str = ""
    chains: str = ""
    chain: str = "ScanLength 3; ScanIn si; ScanOut so; ScanCells f1 f2 f3;"
    macros: str = ""
    procedures: str = LOAD
    burst: str = "PatList { p; }"
    exec: str = ""
    pattern: str = ""
    behind: str = ""

    def text(self) -> str:
        """The text."""
        return f"""STIL 1.0;
{self.head}
Signals {{ {self.signals} }}
SignalGroups {{ pi = 'a + b'; out = 'y + so'; pio = 'a + io'; poo = 'y + io'; {self.groups} }}
Spec {{ {self.spec} }}
Timing {{ {self.timing} WaveformTable w {{ Period {self.period}; Waveforms {{
'a + b + si + bus[0..3]' {{ 01 {{ '0ns' D/U; }} }}
ck {{ 0 {{ '0ns' D; }} P {{ '0ns' D; '45ns' U; '55ns' D; }} }} io {{ 01Z {{ '0ns' D/U/Z; }} HLX {{ '40ns' H/L/X; }} }}
'out + q[0..3]' {{ LHX {{ '40ns' L/H/X; }} }}
{self.waves}
}} }} {self.tables} }}
ScanStructures {{ ScanChain c1 {{ {self.chain} }} {self.chains} }}
MacroDefs {{ {self.macros} }}
Procedures {{ {self.procedures} }}
PatternBurst bb {{ {self.burst} }}
PatternExec {{ Category c; {self.exec} PatternBurst bb; }}
Pattern p {{ W w; {RESET}
{self.pattern}
}}
{self.behind}"""


V = "V { a=1; ck=P; }"
LOADED = "Call load { si=101; so=HLH; }"

# what is written in another dialect, and the same by hand
PAIRS: dict[str, tuple[Program, Program]] = {
    # dropped, since no cycle depends on it
    "Termination of a burst and an entry": (
        Program(burst="Termination { y TerminateHigh; } PatList { p { Termination none; } }", pattern=V), Program(pattern=V)),
    "Termination of a signal": (
        Program(signals="a In { Termination TerminateHigh; } b In; ck In; si In; y Out; so Out; io InOut; bus[0..3] In; q[0..3] Out;", pattern=V),
        Program(pattern=V)),
    "levels": (
        Program(head="DCLevels l { a { VIH '1.8V'; } } DCSets s { l; } DCSequence PowerUp { '0ns' l; }", exec="DCLevels l; DCSets s;",
                pattern=f"DCLevels l; {V}"), Program(pattern=V)),
    "groups without a name": (Program(timing="SignalGroups;", burst="SignalGroups; PatList { p; }", pattern=V), Program(pattern=V)),
    "groups of chains": (Program(chains="ScanChainGroups { g { c1; } }", pattern=LOADED), Program(pattern=LOADED)),
    "cross references, file types, environments": (
        Program(head='Environment e { NameMaps { } } PatternFileType "x";', exec='PatternFileType "logic";',
                pattern=f'X "pattern 1"; {V} Environment {{ }} tag: X t;'), Program(pattern=V)),
    "descriptions of the design": (
        Program(head="ClockStructures i { PLLStructures x { } } CompressorStructures { Compressor c { } }", pattern=V), Program(pattern=V)),
    "the unit of raw events": (Program(pattern=f"TimeUnit '1ns'; {V}"), Program(pattern=V)),
    "words that are skipped": (Program(head="UserKeywords Foo; Foo { V { a=1; } }", pattern=f"Foo x; {V}"), Program(pattern=V)),
    "variables of levels": (Program(spec="Category c { per = '100ns'; vdd = '1.8V'; }", pattern=V), Program(pattern=V)),
    "a marker": (Program(waves="b { P { '0ns' D; '10ns' M; '20ns' U; } }", pattern="V { b=P; }"),
                 Program(waves="b { P { '0ns' D; '20ns' U; } }", pattern="V { b=P; }")),
    # dropped after a check
    "signals that are tied and assigned together": (
        Program(macros="m { E a b; V { a=1; b=1; } C { pi=00; } V { } }", pattern="Macro m;"),
        Program(macros="m { V { a=1; b=1; } C { pi=00; } V { } }", pattern="Macro m;")),
    "signals that are tied by a map": (
        Program(signals="a In; b In { WFCMap { 0->1; 1->0; } } ck In; si In; y Out; so Out; io InOut; bus[0..3] In; q[0..3] Out;",
                macros="m { E a \\m b; V { a=1; b=0; } V { pi=#; } V { b=1; } }", pattern="Macro m { pi=01; }"),
        Program(macros="m { V { a=1; b=0; } V { pi=01; } V { b=1; } }", pattern="Macro m;")),
    "active chains as long as the data": (
        Program(macros="m { W w; ScanChain c1; Shift { V { ck=P; si=#; } } }", pattern=f"ActiveScanChains c1; {LOADED} Loop 2 {{ {LOADED} }} "
                "Macro m { si=011; }"),
        Program(macros="m { W w; Shift { V { ck=P; si=#; } } }", pattern=f"{LOADED} Loop 2 {{ {LOADED} }} Macro m {{ si=011; }}")),
    "a group of active chains": (
        Program(chains="ScanChainGroups { g { c1; } }", pattern=f"ActiveScanChains g; {LOADED}"), Program(pattern=LOADED)),
    "labels at both ends": (
        Program(burst="Start st; Stop sp; PatList { p; }", pattern=f"st: {V} V {{ a=0; }} sp: V {{ a=1; }}"),
        Program(pattern=f"{V} V {{ a=0; }} V {{ a=1; }}")),
    "labels inside, with nothing lost": (
        Program(burst="PatList { p { Start st; Stop sp; } }", pattern="V { a=1; } Call load { si=111; } st: V { a=0; b=1; } sp: V { b=0; } V { a=1; }"),
        Program(pattern="V { a=0; b=1; } V { b=0; }")),
    "variables and subwaveforms that nothing names": (
        Program(head="Variables { Integer k; IntegerConst n = 4; }", pattern=V), Program(pattern=V)),
    "subwaveforms that nothing names": (
        Program(tables="WaveformTable w2 { SubWaveforms { s: Duration '5ns' { '0ns' U; } } InheritWaveformTable w; }", pattern=f"W w2; {V}"),
        Program(tables="WaveformTable w2 { InheritWaveformTable w; }", pattern=f"W w2; {V}")),
    # rewritten word by word
    "signals that are named as statements": (
        Program(signals="a In; b In; C In { Termination TerminateHigh; } V In; ck In; si In; y Out; so Out; io InOut; bus[0..3] In; q[0..3] Out;",
                waves="C { P { '1e-8s' U; } } V { P { e: '5ns' U; '@e + 5ns' D; } }", pattern="V { C=P; V=P; } F { C=P; }"),
        Program(signals="a In; b In; C In; V In; ck In; si In; y Out; so Out; io InOut; bus[0..3] In; q[0..3] Out;",
                waves="C { P { '10ns' U; } } V { P { '5ns' U; '10ns' D; } }", pattern="V { C=P; V=P; }")),
    "a BreakPoint's block": (Program(pattern=f"{V} bp: BreakPoint {{ V {{ a=0; y=H; }} }} {V}"), Program(pattern=f"{V} {V}")),
    "a test point": (Program(pattern=f"{V} IDDQTestPoint; {V}"), Program(pattern=f"{V} {V}")),
    "a list of cells": (Program(chain="ScanLength 3; ScanIn si; ScanOut so; ScanCells { f1; u1.f2; u1/f[3]; }", pattern=LOADED),
                        Program(chain='ScanLength 3; ScanIn si; ScanOut so; ScanCells f1 "u1.f2" "u1/f"[3];', pattern=LOADED)),
    "indexed names": (
        Program(signals="a In; b In; ck In; si In; y Out; so Out; io InOut; bus[0..3] In; q[0..3] Out; t[1] Out;", chains="ScanChain c2 "
                "{ ScanLength 2; ScanIn bus[0]; ScanOut q[1]; ScanCells u.b[0..1]; }", pattern=LOADED),
        Program(signals='a In; b In; ck In; si In; y Out; so Out; io InOut; bus[0..3] In; q[0..3] Out; "t[1]" Out;', chains="ScanChain c2 "
                '{ ScanLength 2; ScanIn "bus[0]"; ScanOut "q[1]"; ScanCells "u.b"[0..1]; }', pattern=LOADED)),
    "an entry's own macros": (
        Program(macros="m { V { a=1; } } } MacroDefs other { m { V { a=0; b=1; } }", burst="PatList { p; r { MacroDefs other; } p; }",
                pattern="Macro m;", behind="Pattern r { Macro m; }"),
        Program(macros="m { V { a=1; } } } MacroDefs other { m { V { a=0; b=1; } }", burst="PatList { p; rr; p; }", pattern="Macro m;",
                behind="Pattern r { Macro m; } PatternBurst rr { MacroDefs other; PatList { r; } }")),
    "variables by name": (
        Program(spec="Variable per { c = '80ns'; d { Min '1ns'; Typ '2ns'; } } Variable e { c { Typ '5ns'; Max '9ns'; } }", pattern=V,
                waves="b { P { '0ns' D; 'e' U; } }"),
        Program(spec="Category c { per = '80ns'; e { Typ '5ns'; Max '9ns'; } } Category d { per { Min '1ns'; Typ '2ns'; } }", pattern=V,
                waves="b { P { '0ns' D; 'e' U; } }")),
    "a waveform that is inherited": (
        Program(tables="WaveformTable w2 { Period '90ns'; InheritWaveformTable w; Waveforms { ck { P { InheritWaveform w.P; '80ns' U; } } } }",
                pattern=f"W w2; {V}"),
        Program(tables="WaveformTable w2 { Period '90ns'; InheritWaveformTable w; Waveforms { ck { P { '0ns' D; '45ns' U; '55ns' D; '80ns' U; } } } }",
                pattern=f"W w2; {V}")),
    "all waveforms that are inherited": (
        Program(tables="WaveformTable w2 { Period '90ns'; Waveforms { ck { InheritWaveform w; } pi { 1 { InheritWaveform w.bus[0].1; } } } }",
                procedures="q { W w2; V { ck=P; pi=11; } }", pattern=f"{V}"),
        Program(pattern=f"{V}")),
    # rewritten by value
    "exponents": (Program(period="'1e-7s'", pattern=V), Program(period="'100ns'", pattern=V)),
    "labels of events": (
        Program(spec="Category c { per = '100ns'; t = '10ns/3'; }", waves="b { P { '0ns' D; e1: 't*3' U; e2: '@e1 + 20.5ns' D; '@e2*2' U; } }",
                pattern="V { b=P; }"),
        Program(spec="Category c { per = '100ns'; t = '10ns/3'; }", waves="b { P { '0ns' D; 't*3' U; '30.5ns' D; '61ns' U; } }",
                pattern="V { b=P; }")),
    "repeats of several characters": (Program(pattern="V { bus=\\r2 01; q=\\r1 LH \\r2 X; } V { bus=\\r2 1\\r2 0 ; }"),
                                      Program(pattern="V { bus=0101; q=LHXX; } V { bus=1100; }")),
    "hexadecimal and decimal digits": (
        Program(groups="five = 'bus[0..3] + a' { Base Hex 01; Alignment LSB; } top = 'bus[0..3] + a' { Alignment MSB; } "
                       "two = 'q[0..1]' { Base Hex LHX; } dec = 'bus[0..3]' { Base Dec 10; }",
                pattern="V { bus=\\h A; q=\\hLH 5; } V { five=\\h 0B; } V { top=\\h B8; two=\\h 6; } V { dec=\\d 4; } V { bus=\\w 01\\w 10; }"),
        Program(pattern="V { bus=1010; q=LHLH; } V { bus=0101; a=1; } V { bus=1011; a=1; q[0..1]=HX; } V { bus=1011; } V { bus=0110; }")),
    "digits in arguments": (
        Program(signals="a In; b In; ck In; si In { Base Hex 01; DataBitCount 3; Alignment LSB; } y Out; so Out { Base Hex LH; Alignment MSB; } "
                "io InOut; bus[0..3] In; q[0..3] Out;", pattern="Call load { si=\\h 5; so=\\h A; }"),
        Program(pattern="Call load { si=101; so=HLH; }")),
    "digits beside characters": (Program(pattern="V { bus=\\w 01\\w 10; } V { 'bus[0..3] + pi'=\\h A\\w 01; } V { 'pi + bus[0..3]'=01\\h A; }"),
                                 Program(pattern="V { bus=0110; } V { bus=1010; a=0; b=1; } V { a=0; b=1; bus=1010; }")),
    "characters as they are": (Program(pattern="V { q=\\l LHLH; bus=\\w 01 10; }"), Program(pattern="V { q=LHLH; bus=0110; }")),
    "a character without a form": (
        Program(waves="b { 01-* { '5ns' D/U/Z/D; } }", macros="m { V { b=#; } }", pattern="V { b=-; } V { b=*; } Macro m { b=-; }"),
        Program(waves="b { 01CA { '5ns' D/U/Z/D; } }", pattern="V { b=C; } V { b=A; } V { b=C; }")),
    "loops of constants": (
        Program(head="Variables { IntegerConst n := 2; IntegerConst m = 'n*2'; }", pattern=f"Loop 'm + 1' {{ {V} }} Loop n {{ {V} }}"),
        Program(pattern=f"Loop 5 {{ {V} }} Loop 2 {{ {V} }}")),
    "maps": (
        Program(groups="mapped = 'bus[0..1]' { WFCMap { x->1; y->0; } } swap = 'bus[2..3]' { WFCMap { 01->10; } }",
                pattern="V { mapped=xy; swap=01; } V { swap=\\m 00; mapped=\\m \\r2 x ; }"),
        Program(pattern="V { bus=1001; } V { bus=1111; }")),
    # F to C
    "fixed signals": (
        Program(procedures=f"{LOAD} q {{ W w; F {{ b=0; }} V {{ pi=#; }} Loop 2 {{ V {{ ck=P; }} }} }}",
                pattern="F { a=1; } V { b=1; } Call q { pi=10; } V { pi=10; }"),
        Program(procedures=f"{LOAD} q {{ W w; C {{ b=0; }} V {{ pi=#; }} Loop 2 {{ V {{ ck=P; }} }} }}",
                pattern="C { a=1; } V { b=1; } Call q { pi=10; } V { pi=10; }")),
    "a fixed signal that a procedure has otherwise": (
        Program(procedures="q { W w; V { a=1; } }", pattern="F { a=0; } V { } Call q; V { b=1; }"),
        Program(procedures="q { W w; V { a=1; } }", pattern="C { a=0; } V { } Call q; V { b=1; }")),
    "joined data without a second assignment": (Program(pattern="V { pi=\\j 10; q=\\j LHLH; }"), Program(pattern="V { pi=10; q=LHLH; }")),
    # inserted
    "a look before a Shift": (
        Program(procedures="load { W w; C { ck=0; so=X; } V { so=#; } Shift { V { ck=P; si=#; so=#; } } }", pattern=LOADED),
        Program(procedures="load { W w; C { ck=0; so=X; } V { so=#; } C { so=X; } Shift { V { ck=P; si=#; so=#; } } }", pattern=LOADED)),
    "a first load without scan-out data": (
        Program(procedures="load { W w; V { ck=0; so=#; } Shift { V { ck=P; si=#; so=#; } } }", pattern="Call load { si=111; } " + LOADED),
        Program(procedures="load { W w; V { ck=0; so=#; } C { so=X; } Shift { V { ck=P; si=#; so=#; } } }",
                pattern="Call load { si=111; so=XXX; } " + LOADED)),
    "a pin of two groups": (
        Program(procedures="q { W w; V { pio=#; poo=#; } V { poo=##; } }", pattern="Call q { pio=10; poo=HXLX; }"),
        Program(procedures="q { W w; V { a=1; io=X; y=H; } V { y=L; } }", pattern="Call q;")),
}

# what has to stop: the program, the lines, and words of the reasons
STOPS: dict[str, tuple[Program, list[int], str]] = {
    "raw events": (Program(pattern="@ 500 V { a=1; }\nV { a=U 10 D 20; }\nV { a='5ns'; }"), [18, 19, 20], "raw event"),
    "conditions and jumps": (
        Program(pattern="If 'k==1' { V { } } Else { V { } }\nWhile 'k<3' { V { } }\nMatchLoop 9 { V { y=H; } }\nGoto x;\nLoopData { }"),
        [18, 19, 20, 21, 22], "depend"),
    "a statement that isn't known": (Program(head="Strange x;", pattern="Odd { }"), [2, 18], "no rule"),
    "an F that a macro three calls down contradicts": (
        Program(macros="m1 { Macro m2; }\nm2 { Macro m3; }\nm3 { V { b=0; a=1; } }", pattern="F { a=0; }\nV { }\nMacro m1;"), [20], "line 15"),
    "an F that a caller's data contradict": (
        Program(procedures="q { W w; F { b=0; }\nV { pi=#; } }", pattern="Call q { pi=10; }\nCall q { pi=01; }"), [14], "line 20 gives it 1"),
    "an F that a caller's data contradict by a macro": (
        Program(macros="m { V { pi=#; } }", pattern="F { a=0; }\nMacro m { pi=10; }"), [18], "line 19"),
    "an F that a Loop round it contradicts": (Program(pattern="Loop 2 {\nV { a=1; }\nF { a=0; }\nV { }\n}"), [20], "line 19"),
    "an F behind which another F stands": (Program(pattern="F { a=0; }\nV { }\nF { a=1; }"), [18], "line 20"),
    "an E of which one signal alone is assigned": (Program(macros="m { E a b;\nV { a=1; } }", pattern="Macro m;"), [13], "line 14"),
    "an E with other characters than its map's": (
        Program(macros="m { E a \\m b;\nV { a=1; b=0; } }", pattern="Macro m;"), [13], "don't match"),
    "an E that a caller's data contradict": (
        Program(macros="m { E a b;\nV { pi=#; } }", pattern="Macro m { pi=00; }\nMacro m { pi=01; }"), [13], "line 20"),
    "an E in a Loop round it": (Program(pattern="Loop 2 {\nV { a=1; }\nE a b;\n}"), [20], "line 19"),
    "a chain longer than its data": (Program(pattern="ActiveScanChains c1;\nCall load { si=11; so=HL; }"), [18], "3 cells"),
    "a chain longer than the data of a macro's caller": (
        Program(macros="m { W w; ScanChain c1;\nShift { V { ck=P; si=#; } } }", pattern="Macro m { si=111; }\nMacro m { si=11; }"), [13], "line 20"),
    "a chain that isn't known": (Program(pattern="ActiveScanChains c9;\nCall load { si=11; so=HL; }"), [18], "c9"),
    "a Start label in a Loop": (Program(burst="Start st; PatList { p; }", pattern="Loop 2 {\nst: V { a=1; } }"), [15], "inside a block"),
    "a Start label whose state is lost": (
        Program(burst="Start st; PatList { p; }", pattern="V { a=1; b=1; }\nst: V { a=0; }"), [15], "sets `b`"),
    "a Stop label whose state is lost": (
        Program(burst="PatList { p { Stop sp; } r; }", pattern="sp: V { a=1; }\nC { b=1; }", behind="Pattern r { W w; V { } }"), [15], "follows"),
    "labels that aren't there": (Program(burst="Start st; Stop sp; PatList { p; }", pattern=V), [15], "no one statement"),
    "a pattern that runs elsewhere too": (Program(burst="PatList { p { Start st; } p; }", pattern=f"{V} st: {V}"), [15], "elsewhere"),
    "a subwaveform that is named": (
        Program(tables="WaveformTable w2 { Period '90ns'; SubWaveforms { s: Duration '5ns' { '0ns' U; } }\nWaveforms { ck { P { '0ns' s; } } } }",
                pattern=V), [11, 12], "subwaveform"),
    "events without a form": (Program(waves="b { P { '0ns' V; } }", pattern=V), [10], "event `V`"),
    "a length": (Program(pattern="V { q=\\l4 LHLH; }\nV { q=\\l 4 LHLH; }"), [18, 19], "length"),
    "an event expression": (Program(pattern="V { a=\\e; }"), [18], "\\e"),
    "a join of a signal that is assigned twice": (Program(pattern="V { pi=\\j 10; a=\\j 0; }"), [18], "joins"),
    "a join in a group that shares a pin": (
        Program(procedures="q { W w; V { pio=\\j #; poo=\\j ##; } }", pattern="Call q { pio=10; poo=HX; }"), [14], "`io`"),
    "a map that isn't there": (Program(pattern="V { bus=\\m 0000; }"), [18], "WFCMap"),
    "a map of a caller's data": (
        Program(groups="swap = 'bus[2..3]' { WFCMap { 01->10; } }", procedures="q { W w; V { swap=\\m #; } }", pattern="Call q { swap=01; }"),
        [14], "line 18"),
    "an argument with a look at what is there": (Program(pattern="Call load { si=%; so=HLH; }"), [18], "argument"),
    "an argument with an argument": (Program(macros="m { Call load { si=#; } }", pattern="Macro m { si=111; }"), [13], "argument"),
    "digits for another number of signals": (
        Program(groups="five = 'bus[0..3] + a' { Base Hex 01; }", pattern="V { five=\\h 0B; }\nV { bus=\\h AB; }\nV { five=\\h B; }\nV { bus=\\d 16; }"),
        [18, 19, 20, 21], "bits"),
    "digits without a character": (Program(groups="two = 'q[0..1]' { Base Hex LHX; }", pattern="V { two=\\h F; }"), [18], "LHX"),
    "no free letter": (
        Program(waves="b { 0123456789ABCDEFGHIJKLMNOPQRSTUVWXYZabcdefghijklmnopqrstuvwxyz- { '5ns' D; } }", pattern="V { b=-; }"), [10, 18], "-"),
    "a character that no table has": (Program(pattern="V { b=-; }"), [18], "character `-`"),
    "a time without a unit": (Program(period="'100'", waves="b { P { '10 + 5ns' U; '0' D; } }", pattern=V), [6, 10], "--unit"),
    "a time without a unit of a signal that is named as a statement": (
        Program(signals="a In; b In; C In { Termination TerminateHigh; } F In; ck In; si In; y Out; so Out; io InOut; bus[0..3] In; q[0..3] Out;",
                waves="C { P { '10' U; } }\nF { P { '5' U; } }", pattern=V), [10, 11], "--unit"),
    "a product of times": (Program(period="'per*per'", pattern=V), [6], "no time"),
    "a variable that has a unit in one category alone": (
        Program(spec="Category c { per = '100ns'; } Category d { per = '100'; }", pattern=V), [6], "in one category"),
    "a Stop in a block": (Program(macros="m { V { }\nStop; }", pattern="Loop 2 { V { }\nStop; }"), [14, 20], "midst"),
    "a label that isn't there": (Program(waves="b { P { '@e1 + 20ns' D; } }", pattern=V), [10], "e1"),
    "a label of several events": (
        Program(waves="b { P { e: '10ns' D; } 1 { e: '20ns' D; '@e + 5ns' U; } }", pattern=V), [10], "no one event"),
    "a loop that isn't constant": (
        Program(head="Variables { Integer k; IntegerConst z = 0; }", pattern="Loop 'k' { V { } }\nLoop 'z' { V { } }\nLoop '7/2' { V { } }"),
        [18, 19, 20], "Loop"),
    "patterns beside each other": (Program(burst="PatList { p; } ParallelPatList { p; }", pattern=V), [15], "beside"),
    "an entry's own scan structures": (Program(burst="PatList { p { ScanStructures ss; } }", pattern=V), [15], "scan structures"),
    "an included file that isn't there": (Program(head='Include "none.stil";', pattern=V), [2], "none.stil"),
    "cells in blocks": (Program(chain="ScanLength 3; ScanCells { f1 { CellIn x; } }", pattern=V), [12], "ScanCells"),
    "a waveform to inherit that isn't there": (
        Program(tables="WaveformTable w2 { Period '90ns'; Waveforms { ck { Q { InheritWaveform w.Q; } } } }", pattern=V), [11], "`Q`"),
    "a variable of volts in a time": (Program(spec="Category c { per = '1.8V'; }", pattern=V), [5], "unit of time"),
    "a pin that is looked at in the second of two groups": (
        Program(procedures="q { W w; V { pio=#; poo=#; } }", pattern="Call q { pio=1Z; poo=HX; }\nCall q { pio=1Z; poo=HL; }"), [19], "`io`"),
    "a load without scan-in and scan-out data": (
        Program(procedures="load { W w; V { ck=0; so=#; } Shift { V { ck=P; si=#; so=#; } } }", pattern="Call load { si=11; }"), [18], "none"),
    "a look before a Shift without a character that looks at nothing": (
        Program(waves="so { X { '40ns' L; } L { '40ns' L; } H { '40ns' H; } }",
                procedures="load { W w; V { so=#; }\nShift { V { ck=P; si=#; so=#; } } }", pattern=LOADED), [15], "padded"),
}
