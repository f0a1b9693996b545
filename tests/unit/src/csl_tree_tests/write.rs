//! Trees over writers that refuse a text, for each text in turn.

use crate::csl_tree_tests::trees::{MIXED, read};
use crate::shared::{Few, assert_written};
use csl_tree::{BufWriteFormat, ElemChild};
use std::fmt::Write;
use std::test::Fail;

#[test]
fn line_breaks_of_a_block(rt: HostRuntime) -> Result<(), Fail> {
    let (alloc, format) = (rt.alloc(), BufWriteFormat::Plain);
    for (source, plain) in [("( A )indent", "A"), (MIXED, "\nx$m$ \n")] {
        let tree = read(&rt, alloc, source)?;
        let Some(ElemChild::Elem(elem)) = tree.0.first() else {
            panic!(rt; "no element");
        };
        let child = &tree.0[0];
        assert_written(&rt, alloc, &|w: &mut Few| tree.write_buf(w, format), plain);
        assert_written(&rt, alloc, &|w: &mut Few| child.write_buf(w, format), plain);
        assert_written(&rt, alloc, &|w: &mut Few| elem.write_buf(w, format), plain);
        // A display text is the plain text, also by `{:#}`.
        assert_written(&rt, alloc, &|w: &mut Few| write!(w, "{tree}"), plain);
        assert_written(&rt, alloc, &|w: &mut Few| write!(w, "{child:#}"), plain);
        assert_written(&rt, alloc, &|w: &mut Few| write!(w, "{elem}"), plain);
        assert_eq!(rt; tree.to_text(alloc, format)?.as_str(), plain);
    }
    Ok(())
}

#[test]
fn tags_and_texts_of_html(rt: HostRuntime) -> Result<(), Fail> {
    let tree = read(&rt, rt.alloc(), MIXED)?;
    let html = |w: &mut Few| tree.write_buf(w, BufWriteFormat::Html);
    let wanted = "<div><a href=\"https://x.y/?a=1&amp;b=2\"><span style=\"font-style: italic;\">x\
                  </span></a>$m$ </div>";
    assert_written(&rt, rt.alloc(), &html, wanted);
    Ok(())
}
