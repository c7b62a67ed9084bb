//! What is wrong with a list or with attributes whose lists differ, and what would be right.

pub fn list_form() -> &'static str {
    "write `list NAME = {VALUE, VALUE}`, or `list NAME = 3` for values without names; a number before the `=` is the list's own: `list NAME 5 = 3`"
}

pub fn list_number(most: usize, number: &str) -> String {
    format!("the number of a list should be 1 to {most}, not {number}")
}

pub fn list_numbers() -> &'static str {
    "leave it out, and the list takes the lowest number that is free"
}

pub fn number_taken(number: usize, name: &str) -> String {
    format!("the list `{name}` has the number {number} already")
}

pub fn two_sizes(number: usize, name: &str, other: usize, size: usize) -> String {
    format!("the list `{name}`, of {other} values, has the number {number} already, and this one has {size} values (number 18)")
}

pub fn taken_in(line: usize) -> String {
    format!("it is declared in line {line}; two lists never have one number: leave this number out, or write another one")
}

pub fn declare_list(name: &str) -> String {
    format!("declare it before this, `list {name} = {{VALUE, VALUE}}`, or write the values here: `{{VALUE, VALUE}}`")
}

pub fn only_the_name(name: &str) -> String {
    format!("the word `list` stands only where a list is declared: write `of {name}` here")
}

pub fn set_list_size(most: usize, name: &str, size: usize) -> String {
    format!("a set's list should have at most {most} values, and `{name}` has {size}")
}

pub fn long_list_in(line: usize) -> String {
    format!("it is declared in line {line}; `one of` takes a list of up to 16 values")
}

pub fn list_size(most: usize, size: &str) -> String {
    format!("this list should have 1 to {most} values, not {size}")
}

pub fn list_sizes() -> &'static str {
    "`one of` has 1 to 16 values, `set of` 1 to 8"
}

pub fn list_values() -> &'static str {
    "a list has 1 to 16 values; one that a set uses has at most 8"
}

pub fn list_of_numbers(before: &str) -> String {
    format!("a list has names, as in `{before} {{low, high}}`, or only the number of its values, as in `{before} 2`")
}

pub fn last_comma() -> &'static str {
    "leave the last comma out"
}

// compared attributes

pub fn lists_differ(formula: &str, left: &str, right: &str) -> String {
    format!("{formula} compares {left} with {right} (number 19)")
}

pub fn of_list(side: &str, name: &str) -> String {
    format!("`{side}` of list `{name}`")
}

pub fn of_place(side: &str, line: usize) -> String {
    format!("`{side}` of a list written in place in line {line}")
}

pub fn other_attribute(side: &str, list: &str, way: &str) -> String {
    format!("`{side}` is of list `{list}`: did you mean `{way}`? If both attributes mean the same values, use one list for both")
}

pub fn same_list(kind: &str, name: &str, line: usize) -> String {
    format!("write `{kind} of {name}` in line {line} too, or compare with another attribute")
}

pub fn one_list() -> &'static str {
    "compare with an attribute of the same list; or use one list for both attributes, if both mean the same values"
}

pub fn lists_too(left: &str, right: &str) -> String {
    format!("they use different lists too, {left} and {right}: compare attributes of one list")
}

pub fn is_list(name: &str) -> String {
    format!("`{name}` is a list, and lists are not compared")
}

// rule files that the library refuses

pub fn sizes_in_file(attribute: &str, class: &str, size: usize, list: usize, other: usize) -> String {
    format!("attribute {attribute} of {class}s has {size} values, and an earlier attribute of list {list} has {other}")
}

pub fn compared_in_file(formula: &str, left: &str, right: &str) -> String {
    format!("`{formula}` compares {left} with {right}")
}

pub fn side_in_file(owner: &str, number: usize, list: usize) -> String {
    match list {
        0 => format!("`{owner}.a{number}` of no list"),
        _ => format!("`{owner}.a{number}` of list {list}"),
    }
}

// warnings

pub fn unused_list(name: &str) -> String {
    format!("no attribute uses the list `{name}`")
}

pub fn drop_list() -> &'static str {
    "use it or leave it out; lists that fix no number can then take other numbers"
}

pub fn name_for_list(name: &str) -> String {
    format!("this list has one value, `{name}`, and a list is called so too")
}

pub fn list_meant(kind: &str, name: &str) -> String {
    format!("if that list is meant, write `{kind} of {name}`")
}
