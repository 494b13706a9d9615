//! What the tests on real cipher text share: keys, and a record's way through sender, cipher and receiver.
use cipher::{Aead, Suite};
use reference::random::Rng;
use reference::version::{ReceiverCalls, SenderCalls, Version};
use reference::{Offered, Setting};

/// The ciphers that have a MAC of so many bytes.
pub fn suites(mac: u8) -> impl Iterator<Item = Suite> {
    let both = [Suite::Aes256Gcm, Suite::ChaCha20Poly1305];
    both.into_iter().filter(move |suite| suite.tags().contains(&mac.into()))
}

/// A sealed record on its way, with what the test knows of it.
#[derive(Clone)]
pub struct Sent {
    pub bytes: Vec<u8>,
    pub count: u32,
    pub number: u64,
    pub app: Vec<u8>,
}

/// The keys of a run, by key count: each cipher key is a new one.
pub struct Keys {
    pub suite: Suite,
    pub seed: u64,
}

impl Keys {
    pub fn iv(&self, count: u32) -> [u8; 12] {
        Rng::new(self.seed ^ (u64::from(count) << 32) ^ 0xabcd).iv()
    }

    /// The cipher of this key, for the end with this setting.
    fn cipher(&self, count: u32, setting: Setting) -> Aead {
        let bytes = Rng::new(self.seed ^ (u64::from(count) << 32)).bytes(32);
        Aead::with_tag(self.suite, &bytes.try_into().unwrap(), setting.mac.into()).unwrap()
    }
}

/// Builds and seals one record with a sender of either version.
pub fn send<S: SenderCalls>(sender: &mut S, keys: &Keys, rng: &mut Rng) -> Option<Sent> {
    let app_len = rng.below(40) as usize;
    let app = rng.bytes(app_len);
    let random_len = if sender.raw().setting.mode == 1 { rng.below(6) as usize } else { 0 };
    let random = rng.bytes(random_len);
    send_data(sender, keys, app, &random, |_| {})
}

/// The same of this data. `change` has the text before the cipher seals it.
pub fn send_data<S: SenderCalls>(
    sender: &mut S,
    keys: &Keys,
    app: Vec<u8>,
    random: &[u8],
    change: impl FnOnce(&mut [u8]),
) -> Option<Sent> {
    let mut out = vec![0u8; 96];
    let count = sender.raw().count;
    let built = sender.build(&app, random, &mut out);
    if built.answer != 0 {
        return None;
    }
    let (assoc, text, total) = (built.assoc as usize, built.text as usize, built.total as usize);
    out.truncate(total);
    let (front, rest) = out.split_at_mut(assoc);
    let (body, mac) = rest.split_at_mut(text - assoc);
    change(body);
    keys.cipher(count, sender.raw().setting).seal(&built.nonce, front, body, mac);
    Some(Sent { bytes: out, count, number: built.number, app })
}

/// Offers a record and, where that is not refused, runs the cipher: what it says, and its text.
pub fn offer<R: ReceiverCalls>(receiver: &R, keys: &Keys, rec: &[u8], slot: u8) -> (Offered, bool, Vec<u8>) {
    let offered = receiver.offer(rec, slot);
    if offered.answer != 0 {
        return (offered, false, Vec::new());
    }
    let (assoc, text) = (offered.assoc as usize, offered.text as usize);
    let mut plain = rec[assoc..text].to_vec();
    let mut cipher = keys.cipher(offered.count, receiver.raw().setting);
    let yes = cipher.open(&offered.nonce, &rec[..assoc], &mut plain, &rec[text..]);
    (offered, yes, plain)
}

/// Offers, runs the cipher and settles; answers the number of Settle (or of Offer) and the data.
pub fn receive<V: Version>(receiver: &mut V::Receiver, keys: &Keys, rec: &[u8], slot: u8) -> (u8, u32, u64, Vec<u8>) {
    let (offered, yes, plain) = offer(receiver, keys, rec, slot);
    if offered.answer != 0 {
        return (offered.answer, 0, 0, Vec::new());
    }
    let mode = receiver.raw().setting.mode;
    let settled = receiver.settle(rec, slot, offered.count, offered.number, yes, &plain);
    let data = V::view(mode, settled.place, settled.length, rec, &plain).to_vec();
    (settled.answer, offered.count, offered.number, data)
}
