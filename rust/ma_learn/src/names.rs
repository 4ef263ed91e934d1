//! Properties and predictors by their names in JPEG XL.

/// Properties 0 to 23. N, W, NW, .. are the pixels above, to the left, above left, ..; v1 is the
/// same pixel in the channel before and g1 its clamped gradient there, v2 and g2 in the one before that.
pub const PROPERTIES: [&str; 24] = [
    "channel",
    "stream",
    "y",
    "x",
    "|N|",
    "|W|",
    "N",
    "W",
    "W-WW-NW+NWW",
    "W+N-NW",
    "W-NW",
    "NW-N",
    "N-NE",
    "N-NN",
    "W-WW",
    "max_error",
    "|v1|",
    "v1",
    "|v1-g1|",
    "v1-g1",
    "|v2|",
    "v2",
    "|v2-g2|",
    "v2-g2",
];

/// Predictors 0 to 13.
pub const PREDICTORS: [&str; 14] = [
    "Zero", "Left", "Top", "Average0", "Select", "Gradient", "Weighted", "TopRight", "TopLeft",
    "LeftLeft", "Average1", "Average2", "Average3", "Average4",
];

/// The name of a split's property. An accepted tree has no other than 0 to 23.
pub fn property(number: u32) -> &'static str {
    PROPERTIES[number as usize]
}

/// The name of a leaf's predictor. An accepted tree has no other than 0 to 13.
pub fn predictor(number: u32) -> &'static str {
    PREDICTORS[number as usize]
}
