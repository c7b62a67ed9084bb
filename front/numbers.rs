//! The library's numbers in words.

const WORDS: [&str; 19] = [
    "a field runs past the file's end",
    "a head count is out of range",
    "a spare or filling bit is set, or bytes follow the end",
    "an attribute's size is out of range",
    "the values of a class take more than 8 bits",
    "a value is not in its list",
    "a starting session is of a user who is not there",
    "a formula is not one that the file's rules allow",
    "a starting session is one that its user could not open and then change by these rules",
    "the question names what is not there, or is not laid out as a question",
    "the rows, or the bytes to write to, are too few",
    "the step is of no known kind, has a spare bit set, or closes with a value",
    "who acts, what is acted on or what is asked for is not there, closed, not the next number, or another user's",
    "the new value is not in the lists",
    "there is no cell for the next number",
    "the formula is false",
    "there are no steps, or the last one is not a grant that fits the question",
    "two attributes use the same list, but have different numbers of values",
    "a formula compares two attributes that use different lists",
];

/// What a number that the library gives says.
pub fn words(number: u32) -> &'static str {
    WORDS.get((number as usize).wrapping_sub(1)).copied().unwrap_or("a number that this program does not know")
}
