# A round file of an edited copy of a market: jq -c -f examples/bids.jq COPY.json
# With --arg bidder NAME in front of -f it has the bid of this bidder alone. The copy is an exchange, or flat bids: each
# bidder bids the values that stand in it, those of the nodes from the top down and from left to right. Leave out who
# doesn't bid: a bidder whose values in the copy are looser than its bounds is refused.
def values($side):
  if has("tree") then [.tree | recurse(.of[]?) | .[$side]]
  else [0, ((.xor // .or)[] | .[$side], (.units | map(0)[]))] end;
$ARGS.named.bidder as $only
| {bids: [.bidders[] | select($only == null or .name == $only) | {bidder: .name, lo: values("lo"), hi: values("hi")}]}
