# Writes the provisional set of each bidder, of the last settlement that goes on, and what the bidder buys (+) and sells (-) by it:
# awk -f examples/provisional.awk JOURNAL
# It is a tool for whoever holds the market: it shows the sets of all bidders, of which each may see its own alone.
$1 == "good" || $1 == "exact" { good[goods++ + 0] = $2 }
$1 == "bidder" { name[bidders++ + 0] = $2 }
$1 == "node" {
    node = nodes[bidders]++
    of[bidders, node] = $3
    units[bidders, node] = $2 == "buy" ? $4 : $2 == "sell" ? -$4 : 0
}
$1 == "provisional" { sets = 0; begun = 1 }
begun && $1 == "set" && sets < bidders { set[++sets] = $2 }

# The trade of a bidder, counted from 1, good by good.
function trade(bidder,    node, number, sum, text) {
    for (node = 0; node < nodes[bidder]; node++)
        if (substr(set[bidder], node + 1, 1) == "1") sum[of[bidder, node]] += units[bidder, node]
    for (number = 0; number < goods; number++)
        if (sum[number] != 0) text = text sprintf(" %+d %s", sum[number], good[number])
    return text == "" ? " nothing" : text
}
END { for (bidder = 1; bidder <= sets; bidder++) print name[bidder - 1], set[bidder] trade(bidder) }
