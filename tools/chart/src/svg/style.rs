//! Colours and patterns.

use std::fmt::Write as _;

/// Cues that differ in colour and pattern; the next ones begin again.
pub const STYLES: usize = 8;
/// Ground and ink of each style, and its pattern in a square of 8 pixels.
const STYLE: [(&str, &str, &str); STYLES] = [
    ("#dbe9f6", "#1f5fa8", "M-1 1L1 -1M0 8L8 0M7 9L9 7"),
    ("#f5bd77", "#a34700", "M-1 7L1 9M0 0L8 8M7 -1L9 1"),
    ("#d5efcd", "#1d6b2f", "M0 2H8M0 6H8"),
    ("#c3b1de", "#5b3a9a", "M2 0V8M6 0V8"),
    ("#fbd0d8", "#9c1237", "M1 2h2M5 6h2"),
    ("#f2dc5e", "#7a5d00", "M0 0L8 8M8 0L0 8"),
    ("#9fd3cc", "#005c52", "M0 4H8M4 0V8"),
    ("#c4c4c4", "#333333", "M0 2L4 6L8 2"),
];

/// Grounds, inks and letters; patterns tell cues apart where there is no colour.
pub fn style_sheet() -> String {
    let mut text = String::from("<defs>\n");
    let mut rules = String::new();
    for (nth, (ground, ink, lines)) in STYLE.iter().enumerate() {
        let _ = writeln!(
            text,
            r#"<pattern id="p{nth}" width="8" height="8" patternUnits="userSpaceOnUse"><path fill="{ground}" d="M0 0h8v8h-8z"/><path stroke="{ink}" fill="none" d="{lines}"/></pattern>"#
        );
        let _ = writeln!(rules, ".c{nth}{{fill:url(#p{nth});stroke:{ink};stroke-width:.6}}");
    }
    text += r##"<pattern id="ps" width="4" height="4" patternUnits="userSpaceOnUse"><path fill="#fff" d="M0 0h4v4h-4z"/><path fill="#444" d="M0 0h2v2h-2zM2 2h2v2h-2z"/></pattern>
<pattern id="pu" width="12" height="12" patternUnits="userSpaceOnUse"><path fill="#fff" d="M0 0h12v12h-12z"/><path stroke="#b00020" stroke-width="2.5" d="M-2 2L2 -2M0 12L12 0M10 14L14 10"/></pattern>
<pattern id="pt" width="3" height="6" patternUnits="userSpaceOnUse"><path fill="#222" fill-opacity=".6" d="M0 0h1v3h-1z"/></pattern>
</defs>
<style>
text{font-family:'DejaVu Sans Mono','Liberation Mono',Menlo,Consolas,monospace;fill:#111}
.title{font-size:22px;font-weight:bold}
.fact,.word{font-size:12px}
.amiss{fill:#b00020;font-weight:bold}
.address{font-size:12px;text-anchor:end}
.label{font-size:10px;text-anchor:middle}
.onheader{fill:#fff}
.onfree{fill:#555}
.plate{fill:#fff;fill-opacity:.88}
.superblock{fill:#8fa3ad;stroke:#263238}
.header{fill:#263238;stroke:#fff;stroke-width:.4}
.freeheader{fill:#e4e4e4;stroke:#999;stroke-width:.6}
.free{fill:#f8f8f8;stroke:#bbb;stroke-width:.6}
.spare{fill:url(#ps);stroke:#444;stroke-width:.4}
.unread{fill:url(#pu);stroke:#b00020}
.together{fill:url(#pt)}
.outline{fill:#fff}
.slot{stroke:#000;stroke-width:1.4;fill:none}
.frame{stroke:#000;stroke-width:1;fill:none}
.lost{stroke:#b00020;stroke-dasharray:3 2}
.dot{stroke:#000;stroke-width:5;stroke-linecap:round}
"##;
    text += &rules;
    // behind the cues' own outlines, which it replaces
    text += ".large{stroke:#000;stroke-width:2}\n</style>\n";
    text
}
