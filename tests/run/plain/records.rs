//! Records, read from their JSON values, and what they are made of. Amounts are in lovelace.

use crate::json::Value;
use std::fmt;

/// The outputs of a transaction, and the entries of its other lists, at most.
const OUTPUT_LIMIT: usize = 65_535;
const ENTRY_LIMIT: usize = 65_536;
/// Fields of a transaction for which there are no rules here.
const NOT_COVERED: &str =
    "scriptFee witnessed scripts from until collateral collateralReturn treasury donation withdrawals proposals votes";

pub type Hash28 = [u8; 28];
pub type Hash32 = [u8; 32];

#[derive(Clone, Copy, PartialEq, Eq, PartialOrd, Ord, Hash)]
pub struct Credential {
    pub hash: Hash28,
    pub is_script: bool,
}

#[derive(Clone, Copy, PartialEq, Eq, PartialOrd, Ord, Hash)]
pub enum Drep {
    Registered(Credential),
    Abstain,
    NoConfidence,
}

impl fmt::Display for Drep {
    fn fmt(&self, out: &mut fmt::Formatter) -> fmt::Result {
        match self {
            Drep::Registered(Credential { hash, is_script }) => {
                out.write_str(if *is_script { "s" } else { "k" })?;
                hash.iter().try_for_each(|it| write!(out, "{it:02x}"))
            }
            Drep::Abstain => out.write_str("abstain"),
            Drep::NoConfidence => out.write_str("no-confidence"),
        }
    }
}

#[derive(Clone, Copy, PartialEq, Eq, Hash)]
pub struct Reference {
    pub transaction: Hash32,
    pub index: u16,
}

pub struct Address {
    pub network: u64,
    pub payment: Credential,
    pub stake: Option<Credential>,
}

#[derive(PartialEq, Eq, PartialOrd, Ord)]
pub struct Asset {
    pub policy: Hash28,
    pub name: Vec<u8>,
}

pub struct Output {
    pub address: Address,
    pub lovelace: u64,
    pub assets: Vec<(Asset, u64)>,
}

/// The registration of an account, with its deposit where it is stated, or a delegation.
pub struct Certificate {
    pub is_registration: bool,
    pub credential: Credential,
    pub deposit: Option<u64>,
    pub pool: Option<Hash28>,
    pub drep: Option<Drep>,
}

pub struct Transaction {
    pub id: Hash32,
    pub inputs: Vec<Reference>,
    /// Each with its size in bytes.
    pub outputs: Vec<(Output, u64)>,
    pub fee: u64,
    pub size: u64,
    pub mint: Vec<(Asset, i64)>,
    pub certificates: Vec<Certificate>,
}

// ---- fields

pub fn number(record: &Value, name: &str) -> Option<u64> {
    record.field(name)?.whole()
}

/// A number below 2^32.
fn small(value: &Value) -> Option<u64> {
    value.whole().filter(|it| *it < 1 << 32)
}

/// A field that may be missing, and is good where it is there.
fn optional<T>(record: &Value, name: &str, read: impl Fn(&Value) -> Option<T>) -> Option<Option<T>> {
    record.field(name).map_or(Some(None), |it| read(it).map(Some))
}

pub fn list<T>(value: &Value, limit: usize, read: impl Fn(&Value) -> Option<T>) -> Option<Vec<T>> {
    value.array().filter(|it| it.len() <= limit)?.iter().map(read).collect()
}

// ---- texts

/// Hex digits, as bytes of which there are so many.
fn hex(digits: &str, bytes: &mut [u8]) -> Option<()> {
    let digit = |it: u8| char::from(it).to_digit(16).map(|it| it as u8);
    (digits.len() == 2 * bytes.len()).then_some(())?;
    for (byte, pair) in bytes.iter_mut().zip(digits.as_bytes().chunks_exact(2)) {
        *byte = 16 * digit(pair[0])? + digit(pair[1])?;
    }
    Some(())
}

fn hash<const N: usize>(digits: &str) -> Option<[u8; N]> {
    let mut bytes = [0; N];
    hex(digits, &mut bytes).map(|()| bytes)
}

pub fn hash_of<const N: usize>(value: &Value) -> Option<[u8; N]> {
    hash(value.text()?)
}

fn credential(text: &str) -> Option<Credential> {
    let (kind, digits) = text.split_at_checked(1).filter(|(kind, _)| matches!(*kind, "k" | "s"))?;
    Some(Credential { hash: hash(digits)?, is_script: kind == "s" })
}

pub fn credential_of(value: &Value) -> Option<Credential> {
    credential(value.text()?)
}

pub fn address(value: &Value) -> Option<Address> {
    let (network, owners) = value.text()?.split_at_checked(1).filter(|(digit, _)| matches!(*digit, "0" | "1"))?;
    let (payment, stake) = owners.split_once('+').map_or((owners, None), |(one, other)| (one, Some(other)));
    let stake = match stake {
        Some(stake) => Some(credential(stake)?),
        None => None,
    };
    Some(Address { network: network.parse().ok()?, payment: credential(payment)?, stake })
}

pub fn reference(value: &Value) -> Option<Reference> {
    let (transaction, digits) = value.text()?.split_once('#')?;
    let is_plain = digits == "0" || !digits.starts_with(['0', '+']);
    Some(Reference { transaction: hash(transaction)?, index: digits.parse().ok().filter(|_| is_plain)? })
}

pub fn drep(value: &Value) -> Option<Drep> {
    match value.text()? {
        "abstain" => Some(Drep::Abstain),
        "no-confidence" => Some(Drep::NoConfidence),
        text => credential(text).map(Drep::Registered),
    }
}

// ---- assets and outputs

fn asset(policy: &Value, name: &Value) -> Option<Asset> {
    let digits = name.text().filter(|it| it.len() <= 64)?;
    let mut name = vec![0; digits.len() / 2];
    hex(digits, &mut name)?;
    Some(Asset { policy: hash_of(policy)?, name })
}

/// Assets, each once, with what there is of each.
fn assets_of<T>(value: &Value, quantity: impl Fn(&Value) -> Option<T>) -> Option<Vec<(Asset, T)>> {
    let mut assets = list(value, usize::MAX, |it| match it.array()? {
        [policy, name, many] => Some((asset(policy, name)?, quantity(many)?)),
        _ => None,
    })?;
    assets.sort_unstable_by(|(one, _), (other, _)| one.cmp(other));
    assets.is_sorted_by(|(one, _), (other, _)| one < other).then_some(assets)
}

fn minted(value: &Value) -> Option<Vec<(Asset, i64)>> {
    assets_of(value, |it| match it {
        Value::Negative(burned) => Some(*burned),
        _ => it.whole().filter(|it| *it > 0)?.try_into().ok(),
    })
}

/// What is at an address, with a list of assets or without.
fn output(at: &Value, lovelace: &Value, assets: &[Value]) -> Option<Output> {
    let assets = match assets {
        [] => Vec::new(),
        [held] => assets_of(held, |it| it.whole().filter(|it| *it > 0))?,
        _ => return None,
    };
    Some(Output { address: address(at)?, lovelace: lovelace.whole()?, assets })
}

pub fn genesis_output(value: &Value) -> Option<(Reference, Output)> {
    let [name, at, lovelace, assets @ ..] = value.array()? else { return None };
    Some((reference(name)?, output(at, lovelace, assets)?))
}

fn made_output(value: &Value) -> Option<(Output, u64)> {
    let [at, lovelace, size, assets @ ..] = value.array()? else { return None };
    Some((output(at, lovelace, assets)?, small(size)?))
}

// ---- transactions

fn certificate(value: &Value) -> Option<Certificate> {
    let is_registration = match value.field("cert")?.text()? {
        "account-reg" => true,
        "delegate" => false,
        _ => return None,
    };
    let deposit = if is_registration { optional(value, "deposit", |it| it.whole())? } else { None };
    let (pool, drep) = (optional(value, "pool", hash_of)?, optional(value, "drep", drep)?);
    let credential = credential_of(value.field("cred")?)?;
    (is_registration || pool.is_some() || drep.is_some()).then_some(())?;
    Some(Certificate { is_registration, credential, deposit, pool, drep })
}

/// A transaction, where it is good and covered.
pub fn transaction(record: &Value) -> Option<Transaction> {
    NOT_COVERED.split(' ').all(|it| record.field(it).is_none()).then_some(())?;
    Some(Transaction {
        id: hash_of(record.field("id")?)?,
        inputs: list(record.field("inputs")?, ENTRY_LIMIT, reference)?,
        outputs: list(record.field("outputs")?, OUTPUT_LIMIT, made_output)?,
        fee: number(record, "fee")?,
        size: small(record.field("size")?)?,
        mint: optional(record, "mint", minted)?.unwrap_or_default(),
        certificates: optional(record, "certs", |it| list(it, ENTRY_LIMIT, certificate))?.unwrap_or_default(),
    })
}
