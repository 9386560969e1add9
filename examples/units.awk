# Sums the units of a journal's first sets, good by good: awk -f examples/units.awk JOURNAL
# Of a good, what is left is below 0 and what nobody gives above it; of an exact good the sum has to be 0.
$1 == "good" || $1 == "exact" { name[goods + 0] = $2; kind[goods++ + 0] = $1 }
$1 == "bidder" { bidders++ }
$1 == "node" { node = nodes[bidders]++; units[bidders, node] = $2 == "buy" ? $4 : $2 == "sell" ? -$4 : 0; of[bidders, node] = $3 }
$1 == "set" && sets < bidders {
    sets++
    for (node = 0; node < nodes[sets]; node++)
        if (substr($2, node + 1, 1) == "1") sum[of[sets, node]] += units[sets, node]
}
END { for (good = 0; good < goods; good++) print kind[good], name[good], sum[good] + 0 }
