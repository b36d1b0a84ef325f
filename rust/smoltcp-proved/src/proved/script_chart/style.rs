// Made from crates/script_chart/src/style.rt by rust/translate: change it there.
//! The parts of the chart that are the same in each: colours, arrow heads, and the legend.

/// Colours and fonts, in light and in dark, and the marks that lines begin and end with.
pub const STYLE: &str = r##"<style>
text { font: 12px ui-monospace, monospace; fill: #1f2328; white-space: pre; }
path { fill: none; stroke-width: 1.5; }
.page { fill: #ffffff; }
.row { stroke: #eaeef2; }
.lifeline { stroke: #8c959f; }
.name { font-weight: bold; text-anchor: middle; }
.time, .index, .quiet { fill: #656d76; }
.state { fill: #1a7f37; font-weight: bold; }
.label { paint-order: stroke; stroke: #ffffff; stroke-width: 3px; stroke-linejoin: round; }
.gap { stroke: #8c959f; }
.sent { stroke: #0969da; marker-end: url(#head); }
.sent-mark { fill: #0969da; }
.reply { stroke: #8250df; marker-start: url(#dot); marker-end: url(#reply-head); }
.reply-mark { fill: #8250df; }
.refused { stroke: #cf222e; marker-end: url(#bar); }
.refused-mark { stroke: #cf222e; }
.refused-text { fill: #cf222e; }
.lost { stroke: #57606a; marker-end: url(#cross); }
.lost-mark { stroke: #57606a; }
.failed { stroke: #bc4c00; marker-end: url(#ring); }
.failed-mark { stroke: #bc4c00; }
.failed-text { fill: #bc4c00; }
.again { stroke-dasharray: 7 5; }
.mark { fill: #9a6700; font-weight: bold; }
@media (prefers-color-scheme: dark) {
text { fill: #e6edf3; }
.page { fill: #0d1117; }
.row { stroke: #21262d; }
.lifeline { stroke: #6e7681; }
.time, .index, .quiet { fill: #8d96a0; }
.state { fill: #3fb950; }
.label { stroke: #0d1117; }
.gap { stroke: #6e7681; }
.sent { stroke: #4493f8; }
.sent-mark { fill: #4493f8; }
.reply { stroke: #ab7df8; }
.reply-mark { fill: #ab7df8; }
.refused, .refused-mark { stroke: #f85149; }
.refused-text { fill: #f85149; }
.lost, .lost-mark { stroke: #9198a1; }
.failed, .failed-mark { stroke: #db6d28; }
.failed-text { fill: #db6d28; }
.mark { fill: #d29922; }
}
</style>
<defs>
<marker id="head" markerUnits="userSpaceOnUse" markerWidth="12" markerHeight="10" refX="11" refY="5"
orient="auto"><path class="sent-mark" d="M1 1 11 5 1 9z"/></marker>
<marker id="reply-head" markerUnits="userSpaceOnUse" markerWidth="12" markerHeight="10" refX="11" refY="5"
orient="auto"><path class="reply-mark" d="M1 1 11 5 1 9z"/></marker>
<marker id="dot" markerUnits="userSpaceOnUse" markerWidth="10" markerHeight="10" refX="5" refY="5">
<circle class="reply-mark" cx="5" cy="5" r="4"/></marker>
<marker id="bar" markerUnits="userSpaceOnUse" markerWidth="6" markerHeight="18" refX="3" refY="9" orient="auto">
<path class="refused-mark" stroke-width="3" d="M3 1V17"/></marker>
<marker id="cross" markerUnits="userSpaceOnUse" markerWidth="14" markerHeight="14" refX="7" refY="7">
<path class="lost-mark" stroke-width="2" d="M2 2 12 12M12 2 2 12"/></marker>
<marker id="ring" markerUnits="userSpaceOnUse" markerWidth="12" markerHeight="12" refX="1" refY="6" orient="auto">
<circle class="failed-mark" fill="none" stroke-width="1.5" cx="6" cy="6" r="4.5"/></marker>
</defs>
"##;

/// What the forms of the arrows mean.
pub const LEGEND: &str = r#"<path class="sent" d="M98 22H138"/><text x="146" y="26">delivered</text>
<path class="sent again" d="M246 22H286"/><text x="294" y="26">delivered again</text>
<path class="sent reply" d="M440 22H480"/><text x="488" y="26">reply</text>
<path class="lost" d="M560 22H590"/><text x="606" y="26">never delivered</text>
<path class="refused" d="M750 22H782"/><text x="794" y="26">refused</text>
<path class="failed" d="M880 22H904"/><text x="924" y="26">emit failed</text>
"#;

/// Colours and fonts of a picture of sequence numbers, in light and in dark.
pub const SEQUENCE_STYLE: &str = r#"<style>
text { font: 12px ui-monospace, monospace; fill: #1f2328; white-space: pre; }
path { fill: none; stroke-width: 1.5; }
.page { fill: #ffffff; }
.grid { stroke: #eaeef2; }
.frame { stroke: #8c959f; }
.name { font-weight: bold; }
.mark { fill: #656d76; paint-order: stroke; stroke: #ffffff; stroke-width: 3px; stroke-linejoin: round; }
.sent { stroke: #0969da; }
.again { stroke: #cf222e; }
.lost { stroke: #57606a; stroke-width: 2; }
.acked { stroke: #1a7f37; }
.window { stroke: #9a6700; stroke-dasharray: 6 4; }
.sack { stroke: #8250df; stroke-width: 3; }
.reset { stroke: #cf222e; stroke-dasharray: 2 3; }
@media (prefers-color-scheme: dark) {
text { fill: #e6edf3; }
.page { fill: #0d1117; }
.grid { stroke: #21262d; }
.frame { stroke: #6e7681; }
.mark { fill: #8d96a0; stroke: #0d1117; }
.sent { stroke: #4493f8; }
.again { stroke: #f85149; }
.lost { stroke: #9198a1; }
.acked { stroke: #3fb950; }
.window { stroke: #d29922; }
.sack { stroke: #ab7df8; }
.reset { stroke: #f85149; }
}
</style>
"#;

/// What the lines of a picture of sequence numbers mean.
pub const SEQUENCE_LEGEND: &str = r#"<path class="sent" d="M90 14h6M93 14V30M90 30h6"/><text x="104" y="26">sent</text>
<path class="again" d="M160 14h6M163 14V30M160 30h6"/><text x="174" y="26">sent again</text>
<path class="sent" d="M274 14h6M277 14V30M274 30h6"/><path class="lost" d="M273 18l8 8m0 -8l-8 8"/>
<text x="290" y="26">never delivered</text>
<path class="acked" d="M424 22H454"/><text x="462" y="26">acknowledged</text>
<path class="acked" d="M574 30v-8"/><text x="582" y="26">the same again</text>
<path class="sack" d="M710 14V30"/><text x="720" y="26">SACK</text>
<path class="window" d="M780 22H810"/><text x="818" y="26">edge of the window</text>
<path class="reset" d="M976 14V30"/><text x="986" y="26">RST</text>
"#;
