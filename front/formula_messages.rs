//! What is wrong in a formula or an expectation, what would be right, and what is warned of.

pub fn heading_form() -> &'static str {
    "a formula begins with `open session:`, `change session:`, `make item:`, `change item:` or `allow PERMISSION:`"
}

pub fn part_form() -> &'static str {
    "write `let NAME = FORMULA`"
}

pub fn answer_form() -> &'static str {
    "a formula is `true`, `false`, a comparison such as `session.role = clerk`, or such joined by `not`, `and`, `or` and parentheses"
}

pub fn too_many_nodes(nodes: usize) -> String {
    format!("this formula takes {nodes} nodes, more than 64")
}

pub fn node_count() -> &'static str {
    "each comparison, `true`, `false`, `not`, `and` and `or` takes one; a part that is named with `let` takes its nodes only once"
}

pub fn too_deep() -> &'static str {
    "this formula has too many parts inside parts"
}

pub fn less_deep() -> &'static str {
    "leave out parentheses, or name a part with `let`"
}

pub fn compares_no_value(operator: &str) -> String {
    format!("`{operator}` compares two values, and what stands before it is no value")
}

pub fn two_sides() -> &'static str {
    "write `a = b and b = c` for three values; parts and parentheses are not compared"
}

pub fn opened(line: usize) -> String {
    format!("a parenthesis that opens in line {line} is not closed")
}

pub fn closes_nothing() -> &'static str {
    "this parenthesis closes nothing"
}

pub fn leave_out() -> &'static str {
    "leave it out, or open one before it"
}

pub fn joined() -> &'static str {
    "two parts of a formula are joined by `and` or `or`"
}

pub fn late_part() -> &'static str {
    "a `let` part stands before the answer of its formula"
}

pub fn parts_first() -> &'static str {
    "put it before the answer, outside parentheses"
}

pub fn answer_began(line: usize) -> String {
    format!("the answer begins in line {line}; is `and` or `or` missing before it?")
}

pub fn no_part(name: &str) -> String {
    format!("`{name}` is no part of this formula, and compared with nothing")
}

pub fn name_part(name: &str) -> String {
    format!("a part is named before it is used: `let {name} = FORMULA`")
}

pub fn not_here(owner: &str) -> String {
    format!("`{owner}` cannot be used in this formula")
}

pub fn here_stand(owners: &str) -> String {
    format!("here stand {owners}")
}

pub fn no_owner(name: &str) -> String {
    format!("`{name}` has no attributes")
}

pub fn new_ones() -> &'static str {
    "`new session` and `new item` are as the step would leave them; users stay as they are"
}

pub fn operators(side: &str) -> String {
    format!("`{side}` is compared with something: write `=`, `<`, `<=`, `in`, `subset` or `proper subset` after it")
}

pub fn not_before(side: &str) -> String {
    format!("`not` stands before a comparison: `not {side} ..`")
}

pub fn no_written_set() -> &'static str {
    "a formula has no sets in braces: write `clerk in session.roles` for each member"
}

pub fn side_form() -> &'static str {
    "a side is an attribute such as `session.role`, a name from the list of the other side, or a number from 0 to 15"
}

pub fn constant(number: &str) -> String {
    format!("{number} is above 15, the greatest constant")
}

pub fn no_list(name: &str) -> String {
    format!("`{name}` is in no list: there is no attribute on the other side")
}

pub fn one_attribute() -> &'static str {
    "a name is looked up in the list of the attribute on the other side: `session.role = clerk`"
}

pub fn is_set(side: &str, operator: &str) -> String {
    format!("`{side}` is a set, and `{operator}` needs one value there")
}

pub fn is_one(side: &str, operator: &str) -> String {
    format!("`{side}` is one value, and `{operator}` needs a set there")
}

pub fn is_part(name: &str) -> String {
    format!("`{name}` is a part, which is true or false and not compared")
}

pub fn expect_form() -> &'static str {
    "write `expect WHO never PERMISSION` or `expect WHO can PERMISSION`, and `on ITEM` where one item is meant"
}

pub fn never_form() -> &'static str {
    "for what must not happen write `expect WHO never PERMISSION`"
}

pub fn who_form() -> &'static str {
    "write `anna`, `user anna`, `user 0`, `session night_run`, `session 0` or `anyone`"
}

pub fn item_asked_form() -> &'static str {
    "write `line_4711`, `item line_4711`, `item 1` or `any item`"
}

pub fn class_needed(class: &str, word: &str) -> String {
    format!("a name that is a word here needs its class word or quotes: `{class} {word}`")
}

// warnings and notes

pub fn other_order() -> &'static str {
    "these lists have their names in another order, and are compared by number"
}

pub fn other_names() -> &'static str {
    "these lists have different names, and are compared by number"
}

pub fn write_alike(pairs: &str) -> String {
    format!("{pairs}; write both lists alike")
}

pub fn no_such_value(number: u8) -> String {
    format!("no value of this list has the number {number}, so this is never true")
}

pub fn unused_part(name: &str) -> String {
    format!("nothing uses the part `{name}`")
}

pub fn drop_it() -> &'static str {
    "use it or leave it out"
}

pub fn unused_attribute(name: &str, class: &str) -> String {
    format!("no formula uses the attribute `{name}` of {class}s")
}

pub fn goes_by_order(operator: &str, order: &str) -> String {
    format!("`{operator}` goes by the order of the list: {order}")
}
