//! The lines of the benchmark stream that register accounts and count their stakes: of what docs/contribute/load.md
//! describes, the genesis, the registrations and the blocks, without proposals, votes and rewards.

use std::fmt::Write;

/// The registrations of one transaction.
const EACH: u64 = 500;
const FUNDS: u64 = 10_000_000_000;
const DEPOSIT: u64 = 2;
const FEE: u64 = 1;
const GENESIS: &str = concat!(
    r#"{"kind":"genesis","network":1,"slot":0,"epochLength":10,"treasury":1000000,"reserves":9998999985,"#,
    r#""params":{"maxTxSize":16384,"minFeeA":0,"minFeeB":0,"coinsPerUTxOByte":0,"keyDeposit":2}"#,
);

/// Hands over each line of the stream.
pub fn each_line(seed: u64, accounts: u64, epochs: u64, mut hear: impl FnMut(&str)) {
    hear(&genesis());
    let (mut left, mut taken) = (FUNDS, 0);
    for (name, first) in (2..).zip((0..accounts).step_by(EACH as usize)) {
        let after = accounts.min(first + EACH);
        let spent = |it| weight(seed, it) + DEPOSIT;
        left -= (first..after).map(spent).sum::<u64>() + FEE;
        hear(&registration(seed, name, taken, first..after, left));
        taken = after - first;
    }
    for epoch in 0..epochs {
        let pulse = 1 + (u128::from(seed) + u128::from(epoch)) % 1000;
        hear(&format!(r#"{{"kind":"block","slot":{},"pulse":{pulse}}}"#, 10 * epoch + 5));
        hear(&format!(r#"{{"kind":"block","slot":{},"pulse":1}}"#, 10 * epoch + 10));
    }
}

fn genesis() -> String {
    let pool = format!(r#"["{:056}",5,0,0,[0,1],"1k{:056}"]"#, 50, 12);
    let dreps = format!(r#"["k{:056}",5,20],["k{:056}",5,20]"#, 30, 31);
    let output = format!(r#"["{:064}#0","1k{:056}",{FUNDS}]"#, 1, 1);
    format!(r#"{GENESIS},"outputs":[{output}],"accounts":[],"pools":[{pool}],"dreps":[{dreps}]}}"#)
}

/// What an account has in its output.
fn weight(seed: u64, account: u64) -> u64 {
    1000 + ((u128::from(seed) + 37 * u128::from(account)) % 1000) as u64
}

fn registration(seed: u64, name: u64, taken: u64, accounts: std::ops::Range<u64>, left: u64) -> String {
    let (mut outputs, mut certificates) = (String::new(), String::new());
    for it in accounts {
        let key = format!("k{:056}", 1000 + it);
        let drep = match it % 4 {
            2 => format!("k{:056}", 31),
            3 => "abstain".to_owned(),
            _ => format!("k{:056}", 30),
        };
        let _ = write!(outputs, r#"["1k{:056}+{key}",{},0],"#, 1, weight(seed, it));
        let comma = if certificates.is_empty() { "" } else { "," };
        let _ = write!(
            certificates,
            r#"{comma}{{"cert":"account-reg","cred":"{key}","pool":"{:056}","drep":"{drep}"}}"#,
            50
        );
    }
    let begun = format!(r#"{{"kind":"tx","id":"{name:064}","inputs":["{:064}#{taken}"],"#, name - 1);
    let rest = format!(r#"["1k{:056}",{left},0]"#, 1);
    format!(r#"{begun}"outputs":[{outputs}{rest}],"fee":{FEE},"size":0,"certs":[{certificates}]}}"#)
}
