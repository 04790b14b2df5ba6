//! The frame of docs/DECISIONS.md, in which the fragments of examples stand.

const START: &str = "formset guid={0x1,0x2,0x3,{0x4,0x5,0x6,0x7,0x8,0x9,0xA,0xB}},title=STRING_TOKEN(2),\
                     help=STRING_TOKEN(3),form formid=1,title=STRING_TOKEN(4);";
const END: &str = "endform;endformset;";

/// `P` before a comma or semicolon is `prompt=S,help=S`, and `S` is `STRING_TOKEN(0)`.
fn spelled(fragment: &str) -> String {
    let mut text = fragment.replace("P,", "prompt=S,help=S,").replace("P;", "prompt=S,help=S;");
    for (short, long) in [("=S,", "=STRING_TOKEN(0),"), ("=S;", "=STRING_TOKEN(0);")] {
        text = text.replace(short, long);
    }
    text
}

pub fn framed(fragment: &str) -> String {
    format!("{START}{}{END}", spelled(fragment))
}
