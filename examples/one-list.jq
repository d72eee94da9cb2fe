# How the five sets of a document differ from those that an engine makes of one list, the bounding set: it gives the list to the
# sets that $filled names, as `bounding, effective`, and leaves the others empty. The text is empty where they don't differ. A set
# that isn't there, or is null, is empty, and a name that stands twice counts once, as the office reads them.
def names: . // [] | unique
  | if all(type == "string" and test("\\ACAP_[A-Z_]+\\z")) then . else error("a set of the document has what is no capability") end;
def told($verb): if . == [] then empty else $verb + " " + join(" ") end;
($filled | split(", ")) as $filled
| .capabilities as $sets
| if $sets | type == "object" then . else error("the document has no capabilities") end
| ($sets.bounding | names) as $list
| [("ambient", "bounding", "effective", "inheritable", "permitted") as $set
  | ($sets[$set] | names) as $has
  | (if $filled | index($set) then $list else [] end) as $made
  | [($has - $made | told("has")), ($made - $has | told("lacks"))]
  | if . == [] then empty else $set + " " + join(", and ") end]
| join("; ")
