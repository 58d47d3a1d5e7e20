# Turns the gates of a BLIF file, as Yosys writes them with `write_blif -icells`, into lines of the bench form.
#
# Usage: awk -v clock=NAME -f tools/bench.awk FILE.blif > FILE.bench      docs/formats/netlist.md shows the whole way from Verilog
/^\.inputs/ { for (i = 2; i <= NF; i++) if ($i != clock) print "INPUT(" $i ")" }
/^\.outputs/ { for (i = 2; i <= NF; i++) print "OUTPUT(" $i ")" }
/^\.names/ && NF == 3 { from = $2; to = $3 }
/^1 1$/ && to != "" { print to " = BUF(" from ")" }
!/^\.names/ { to = "" }
/^\.subckt/ {
    gate = $2; gsub(/[$_]/, "", gate); sub(/^DFF.*/, "DFF", gate)
    list = ""
    for (i = 3; i <= NF; i++) {
        at = index($i, "="); pin = substr($i, 1, at - 1); net = substr($i, at + 1)
        if (pin == "Y" || pin == "Q") out = net
        else if (pin != "C") list = list (list == "" ? "" : ", ") net
    }
    print out " = " gate "(" list ")"
}
