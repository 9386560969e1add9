# The section of an exchange in line form, from its JSON file: jq -rf examples/section.jq EXCHANGE.json
# A journal is its head, this section, and what the journal states; an exchange file in line form is this section
# between the lines `ice 1 exchange` and `end exchange`. The file is taken as right: `ice best` tells what is wrong in it.
def name: if type == "object" then .exact else . end;
def values: "\(.lo) \(.hi)";
def nodes($number):
  if has("choose") then
    "node choose \(.choose[0]) \(.choose[1]) \(.of | length) \(values)", (.of[] | nodes($number))
  elif has("buy") then
    "node buy \($number[.buy]) \(.units) \(values)"
  else
    "node sell \($number[.sell]) \(.units) \(values)"
  end;
(.goods | map(name)) as $goods
| ($goods | to_entries | map({key: .value, value: .key}) | from_entries) as $number
| (.settings | "settings \(.weight) \(.close_regret) \(.cap) \(.improve) \(.rounds) \(.branches)" + if (.derived // 0) == 0 then "" else " \(.derived)" end),
  (.goods[] | if type == "object" then "exact \(.exact)" else "good \(.)" end),
  (.bidders[]
    | .own as $own
    | "bidder \(.name) \($goods | map($own[.] // 0) | join(" "))", (.tree | nodes($number)))
