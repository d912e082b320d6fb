//! The ledger, and what transactions and blocks change of it, by the rules of docs/use/rules.md. Amounts are in lovelace.
//!
//! Outputs, ids and accounts are looked up by name, and no line tells them in order: so they stand in hash maps.

use crate::json::Value;
use crate::records::{Asset, Certificate, Credential, Drep, Hash28, Hash32, Output, Reference, Transaction};
use crate::records::{credential_of, drep, genesis_output, hash_of, number, transaction};
use std::collections::{BTreeMap, HashMap, HashSet};
use std::fmt::Write;

/// The rule that is broken, as it is printed.
type Judged<T> = Result<T, String>;

#[derive(Clone, Copy)]
struct Account {
    deposit: u64,
    balance: u64,
    pool: Option<Hash28>,
    drep: Option<Drep>,
}

/// A credential that is registered, or that outputs name as their stake part.
#[derive(Default)]
struct Holder {
    stake: u64,
    account: Option<Account>,
}

#[derive(Default)]
struct Params {
    greatest_size: u64,
    fee_of_byte: u64,
    fee_beside: u64,
    lovelace_of_byte: u64,
    key_deposit: u64,
}

/// The stakes of DReps are summed when the epoch begins, so pulses count nothing but themselves.
#[derive(Default)]
struct Frozen {
    stakes: BTreeMap<Drep, u64>,
    entries: u64,
    counted: u64,
}

#[derive(Default)]
struct Pots {
    outputs: u64,
    deposits: u64,
    rewards: u64,
    fees: u64,
    treasury: u64,
    reserves: u64,
}

#[derive(Default)]
pub struct Ledger {
    network: u64,
    epoch_length: u64,
    params: Params,
    slot: u64,
    epoch: u64,
    dormant: u64,
    outputs: HashMap<Reference, Output>,
    used_ids: HashSet<Hash32>,
    holders: HashMap<Credential, Holder>,
    pools: HashSet<Hash28>,
    dreps: HashSet<Credential>,
    frozen: Frozen,
    pots: Pots,
}

// ---- records

impl Ledger {
    /// The ledger of a genesis, which is taken to break no rule.
    pub fn from_genesis(record: &Value) -> Option<Ledger> {
        let (slot, epoch_length) = (number(record, "slot")?, number(record, "epochLength")?);
        let (network, epoch) = (number(record, "network")?, slot.checked_div(epoch_length)?);
        let pots =
            Pots { treasury: number(record, "treasury")?, reserves: number(record, "reserves")?, ..Pots::default() };
        let params = params(record.field("params")?)?;
        let mut ledger = Ledger { network, epoch_length, params, slot, epoch, pots, ..Ledger::default() };
        for name in ["outputs", "accounts", "pools", "dreps"] {
            record.field(name)?.array()?.iter().try_for_each(|it| ledger.begin_with(name, it))?;
        }
        ledger.freeze();
        Some(ledger)
    }

    fn begin_with(&mut self, name: &str, value: &Value) -> Option<()> {
        match (name, value.array()?) {
            ("outputs", _) => {
                let (reference, output) = genesis_output(value)?;
                self.used_ids.insert(reference.transaction);
                self.put(reference, output);
            }
            ("accounts", [credential, deposit, balance, pool, vote]) => {
                let (deposit, balance) = (deposit.whole()?, balance.whole()?);
                self.pots.deposits += deposit;
                self.pots.rewards += balance;
                let account = Account { deposit, balance, pool: hash_of(pool), drep: drep(vote) };
                self.holders.entry(credential_of(credential)?).or_default().account = Some(account);
            }
            ("pools", [pool, deposit, ..]) => {
                self.pots.deposits += deposit.whole()?;
                self.pools.insert(hash_of(pool)?);
            }
            ("dreps", [credential, deposit, _]) => {
                self.pots.deposits += deposit.whole()?;
                self.dreps.insert(credential_of(credential)?);
            }
            _ => return None,
        }
        Some(())
    }

    /// Writes the answer to a record, where it is good and covered.
    pub fn answer(&mut self, line: u64, record: &Value, text: &mut String) -> Option<()> {
        let judged = match record.field("kind")?.text()? {
            "tx" => self.apply(transaction(record)?).map(|()| "accepted".to_owned()),
            "block" => self.block(number(record, "slot")?, number(record, "pulse")?, line, text),
            "print" => (record.field("what")?.text()? == "pots").then(|| Ok(format!("pots {}", self.pots())))?,
            _ => return None,
        };
        let answer = judged.unwrap_or_else(|rule| format!("refused {rule}"));
        writeln!(text, "{line} {answer}").ok()
    }

    pub fn pots(&self) -> String {
        let Pots { outputs, deposits, rewards, fees, treasury, reserves } = self.pots;
        let supply = outputs + deposits + rewards + fees + treasury + reserves;
        let moving = format!("outputs {outputs} deposits {deposits} rewards {rewards} fees {fees} donations 0");
        format!("{moving} treasury {treasury} reserves {reserves} supply {supply}")
    }
}

fn params(record: &Value) -> Option<Params> {
    Some(Params {
        greatest_size: number(record, "maxTxSize")?,
        fee_of_byte: number(record, "minFeeA")?,
        fee_beside: number(record, "minFeeB")?,
        lovelace_of_byte: number(record, "coinsPerUTxOByte")?,
        key_deposit: number(record, "keyDeposit")?,
    })
}

// ---- the rules on a transaction

impl Ledger {
    /// What the accounts become that a transaction names.
    fn judge(&self, transaction: &Transaction) -> Judged<HashMap<Credential, Account>> {
        if self.used_ids.contains(&transaction.id) {
            return Err("30 TxIdUsed".to_owned());
        }
        let taken = self.taken(&transaction.inputs)?;
        self.check_size_and_fee(transaction)?;
        self.check_outputs(transaction)?;
        let changed = self.changed_accounts(&transaction.certificates)?;
        self.check_balance(&taken, transaction)?;
        check_assets(&taken, transaction)?;
        Ok(changed)
    }

    fn taken(&self, inputs: &[Reference]) -> Judged<Vec<&Output>> {
        if inputs.is_empty() {
            return Err("32 NoInputs".to_owned());
        }
        let (mut seen, mut taken) = (HashSet::new(), Vec::with_capacity(inputs.len()));
        for (place, input) in inputs.iter().enumerate() {
            taken.push(self.outputs.get(input).ok_or_else(|| format!("33 InputMissing at {place}"))?);
            if !seen.insert(input) {
                return Err(format!("34 InputRepeated at {place}"));
            }
        }
        Ok(taken)
    }

    fn check_size_and_fee(&self, transaction: &Transaction) -> Judged<()> {
        let Params { greatest_size, fee_of_byte, fee_beside, .. } = self.params;
        if transaction.size > greatest_size {
            return Err(format!("35 TxTooLarge max {greatest_size}"));
        }
        let least = u128::from(fee_of_byte) * u128::from(transaction.size) + u128::from(fee_beside);
        if u128::from(transaction.fee) < least { Err(format!("37 FeeTooSmall min {least}")) } else { Ok(()) }
    }

    fn check_outputs(&self, transaction: &Transaction) -> Judged<()> {
        for (place, (output, size)) in transaction.outputs.iter().enumerate() {
            let least = u128::from(160 + size) * u128::from(self.params.lovelace_of_byte);
            if u128::from(output.lovelace) < least {
                return Err(format!("38 OutputTooSmall at {place} min {least}"));
            }
            if output.address.network != self.network {
                return Err(format!("39 OutputWrongNetwork at {place}"));
            }
        }
        Ok(())
    }

    fn changed_accounts(&self, certificates: &[Certificate]) -> Judged<HashMap<Credential, Account>> {
        let mut changed: HashMap<Credential, Account> = HashMap::new();
        for (place, certificate) in certificates.iter().enumerate() {
            let credential = certificate.credential;
            let stands = || self.holders.get(&credential).and_then(|it| it.account);
            let before = changed.get(&credential).copied().or_else(stands);
            changed.insert(credential, self.changed_account(certificate, before, place)?);
        }
        Ok(changed)
    }

    fn changed_account(&self, certificate: &Certificate, before: Option<Account>, place: usize) -> Judged<Account> {
        let deposit = self.params.key_deposit;
        if certificate.is_registration && before.is_some() {
            return Err(format!("60 AccountRegistered at {place}"));
        }
        if !certificate.is_registration && before.is_none() {
            return Err(format!("61 AccountUnknown at {place}"));
        }
        if certificate.deposit.is_some_and(|it| it != deposit) {
            return Err(format!("62 DepositWrong at {place} want {deposit}"));
        }
        if certificate.pool.is_some_and(|it| !self.pools.contains(&it)) {
            return Err(format!("65 PoolUnknown at {place}"));
        }
        if matches!(certificate.drep, Some(Drep::Registered(it)) if !self.dreps.contains(&it)) {
            return Err(format!("66 DrepUnknown at {place}"));
        }
        let account = before.unwrap_or(Account { deposit, balance: 0, pool: None, drep: None });
        Ok(Account { pool: certificate.pool.or(account.pool), drep: certificate.drep.or(account.drep), ..account })
    }

    fn deposits_of(&self, transaction: &Transaction) -> u64 {
        let registrations = transaction.certificates.iter().filter(|it| it.is_registration);
        registrations.map(|_| self.params.key_deposit).sum()
    }

    fn check_balance(&self, taken: &[&Output], transaction: &Transaction) -> Judged<()> {
        let consumed: u128 = taken.iter().map(|it| u128::from(it.lovelace)).sum();
        let given: u128 = transaction.outputs.iter().map(|(it, _)| u128::from(it.lovelace)).sum();
        let produced = given + u128::from(transaction.fee) + u128::from(self.deposits_of(transaction));
        if consumed == produced {
            Ok(())
        } else {
            Err(format!("110 NotBalanced consumed {consumed} produced {produced}"))
        }
    }
}

fn check_assets(taken: &[&Output], transaction: &Transaction) -> Judged<()> {
    // (of each asset what is consumed, and what is produced)
    let mut sums: BTreeMap<&Asset, [u128; 2]> = BTreeMap::new();
    for (asset, many) in taken.iter().flat_map(|it| &it.assets) {
        sums.entry(asset).or_default()[0] += u128::from(*many);
    }
    for (asset, many) in &transaction.mint {
        sums.entry(asset).or_default()[usize::from(*many < 0)] += u128::from(many.unsigned_abs());
    }
    for (asset, many) in transaction.outputs.iter().flat_map(|(it, _)| &it.assets) {
        sums.entry(asset).or_default()[1] += u128::from(*many);
    }
    match sums.values().enumerate().find(|(_, [consumed, produced])| consumed != produced) {
        None => Ok(()),
        Some((place, [consumed, produced])) => {
            Err(format!("111 AssetNotBalanced at {place} consumed {consumed} produced {produced}"))
        }
    }
}

// ---- what records change

impl Ledger {
    fn apply(&mut self, transaction: Transaction) -> Judged<()> {
        for (credential, account) in self.judge(&transaction)? {
            self.holders.entry(credential).or_default().account = Some(account);
        }
        self.pots.deposits += self.deposits_of(&transaction);
        self.pots.fees += transaction.fee;
        self.used_ids.insert(transaction.id);
        for input in &transaction.inputs {
            self.take(input);
        }
        for (index, (output, _)) in (0..).zip(transaction.outputs) {
            self.put(Reference { transaction: transaction.id, index }, output);
        }
        Ok(())
    }

    fn take(&mut self, reference: &Reference) {
        let Some(output) = self.outputs.remove(reference) else { return };
        self.pots.outputs -= output.lovelace;
        let Some(credential) = output.address.stake else { return };
        let Some(holder) = self.holders.get_mut(&credential) else { return };
        holder.stake -= output.lovelace;
        if holder.stake == 0 && holder.account.is_none() {
            self.holders.remove(&credential);
        }
    }

    fn put(&mut self, reference: Reference, output: Output) {
        self.pots.outputs += output.lovelace;
        if let Some(credential) = output.address.stake.filter(|_| output.lovelace > 0) {
            self.holders.entry(credential).or_default().stake += output.lovelace;
        }
        self.outputs.insert(reference, output);
    }

    /// The answer to a block, behind the lines of the boundary that it crosses.
    fn block(&mut self, slot: u64, pulse: u64, line: u64, text: &mut String) -> Judged<String> {
        let epoch = slot / self.epoch_length;
        if slot <= self.slot {
            return Err(format!("10 SlotNotLater last {}", self.slot));
        }
        if epoch > self.epoch + 1 {
            return Err(format!("11 EpochSkipped now {}", self.epoch));
        }
        if pulse == 0 {
            return Err("12 ZeroPulse".to_owned());
        }
        if epoch > self.epoch {
            self.cross(line, text);
        }
        self.slot = slot;
        self.frozen.counted = self.frozen.entries.min(self.frozen.counted + pulse);
        Ok(format!("block slot {slot} epoch {epoch} counted {} of {}", self.frozen.counted, self.frozen.entries))
    }

    /// The boundary where there are no proposals, no rewards, and no pools that retire.
    fn cross(&mut self, line: u64, text: &mut String) {
        let ended = self.freeze();
        self.epoch += 1;
        self.dormant += 1;
        let _ = writeln!(text, "{line} epoch {} frozen {} dormant {}", self.epoch, self.frozen.entries, self.dormant);
        for (drep, stake) in ended.stakes.iter().filter(|(_, stake)| **stake > 0) {
            let _ = writeln!(text, "{line} stake {drep} {stake}");
        }
        let _ = writeln!(text, "{line} pots {}", self.pots());
    }

    /// Counts what stands; what was frozen before.
    fn freeze(&mut self) -> Frozen {
        let mut stakes = BTreeMap::new();
        for holder in self.holders.values() {
            if let Some(Account { drep: Some(drep), balance, .. }) = holder.account {
                *stakes.entry(drep).or_default() += holder.stake + balance;
            }
        }
        std::mem::replace(&mut self.frozen, Frozen { stakes, entries: self.holders.len() as u64, counted: 0 })
    }
}
