use std::prelude::HostRuntime;
#[test]
fn holds() {
    std::test::passes(|| -> Result<(), Fail> {
        let rt = HostRuntime::host();
        assert_eq!(one(rt.alloc())?, 1, "; {}", 2);
        Ok(())
    })
}
#[test]
fn counts() {
    assert!([1; 2].len() == 2);
    assert_eq!(one(), [1; 2]);
}
