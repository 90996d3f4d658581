//! Inks: presentation attributes of shapes, one for each meaning. Hues that most eyes tell apart; shape, outline or
//! hatching differs as well.

pub const FRAME: &str = "fill=\"none\" stroke=\"#666666\"";
pub const BAND: &str = "fill=\"#eeeeee\"";
pub const STRIPE: &str = "fill=\"#f6f6f6\"";
pub const RULE: &str = "stroke=\"#cccccc\"";

pub const TRACK: &str = "fill=\"none\" stroke=\"#000000\" stroke-width=\"2\"";
/// Around a group's lines, where they cross another's.
pub const GAP: &str = "fill=\"none\" stroke=\"#ffffff\" stroke-width=\"6\"";
pub const GROUP: &str = "fill=\"none\" stroke=\"#000000\" stroke-width=\"1.5\"";
/// Where a drop ends at its group's bar.
pub const DOT: &str = "fill=\"#000000\" stroke=\"none\"";
pub const BLACK: &str = "fill=\"#000000\"";
pub const LOCK: &str = "fill=\"#ffffff\" stroke=\"#000000\" stroke-width=\"1.5\"";

pub const RUN_OVER: &str = "fill=\"#0072b2\"";
pub const FLANK: &str = "fill=\"#fde3cf\" stroke=\"#d55e00\" stroke-width=\"1.5\"";
pub const EXIT_ZONE: &str = "fill=\"#ffffff\" stroke=\"#007a5a\" stroke-width=\"2\"";

pub const WHITE: &str = "fill=\"#ffffff\"";
pub const HEAD: &str = "fill=\"#e4e4e4\"";
pub const LANE: &str = "stroke=\"#666666\"";
pub const WORK_ASKED: &str = "fill=\"#ffffff\" stroke=\"#7a5c00\" stroke-dasharray=\"4 3\"";
pub const WORK_AGREED: &str = "fill=\"#ffefbf\" stroke=\"#7a5c00\"";
pub const OPEN: &str = "fill=\"url(#open)\" stroke=\"#7a5c00\"";
pub const MOVEMENT_ASKED: &str = "fill=\"#ffffff\" stroke=\"#00507f\" stroke-dasharray=\"4 3\"";
pub const CLEAR: &str = "fill=\"#3fb795\" stroke=\"#00507f\"";
pub const DANGER: &str = "fill=\"url(#danger)\" stroke=\"#00507f\"";
pub const EFFICIENT: &str = "fill=\"#005c44\" stroke=\"#ffffff\"";
pub const TICK: &str = "fill=\"none\" stroke=\"#ffffff\" stroke-width=\"2\"";
pub const LACKING: &str = "fill=\"#ffffff\" stroke=\"#000000\" stroke-width=\"1.5\"";
pub const KEY: &str = "fill=\"none\" stroke=\"#000000\" stroke-width=\"1.5\"";
pub const CROSS: &str = "fill=\"none\" stroke=\"#c04400\" stroke-width=\"2.5\"";

/// What OPEN and DANGER are filled with: oblique lines, level stripes.
pub const PATTERNS: &str = "\
<defs>
<pattern id=\"open\" width=\"6\" height=\"6\" patternUnits=\"userSpaceOnUse\">
<rect width=\"6\" height=\"6\" fill=\"#ffffff\"/>
<path d=\"M-1 1 l2 -2 M0 6 l6 -6 M5 7 l2 -2\" stroke=\"#7a5c00\" stroke-width=\"1.5\"/>
</pattern>
<pattern id=\"danger\" width=\"6\" height=\"6\" patternUnits=\"userSpaceOnUse\">
<rect width=\"6\" height=\"6\" fill=\"#ffffff\"/>
<rect width=\"6\" height=\"3\" fill=\"#d55e00\"/>
</pattern>
</defs>
";
