//! Banners: the features in question among others, names that nearly are theirs, several markers, none.
use crate::intended::NAMES;
use crate::rng::Rng;

const OTHERS: [&str; 12] = [
    "", "shell_v2", "cmd", "stat_v", "stat_v2 ", "xstat_v2", "sendrecv", "sendrecv_v2_", "ls_v22", "STAT_V2", "features", "features=ls_v2",
];

const FRONTS: [&str; 7] = ["", "device::", "device::ro.product.name=x;", "feature=stat_v2;", "ffeatures", "features", "host::"];

pub fn random(rng: &mut Rng) -> Vec<u8> {
    let mut banner = rng.pick(&FRONTS).as_bytes().to_vec();
    let marked = match rng.below(10) {
        0 => 0,
        1 => 2,
        _ => 1,
    };
    for _ in 0..marked {
        banner.extend(b"features=");
        let present = if rng.chance(40) { 100 } else { rng.pick(&[0, 30, 60, 90]) };
        let mut names: Vec<&str> = NAMES.into_iter().filter(|_| rng.chance(present)).collect();
        for _ in 0..rng.below(4) {
            names.insert(rng.below(names.len() + 1), rng.pick(&OTHERS));
        }
        for (i, name) in names.iter().enumerate() {
            if i > 0 {
                banner.push(rng.pick(b",,,;"));
            }
            banner.extend(name.as_bytes());
        }
        if marked == 2 {
            banner.push(rng.pick(b";,x"));
        }
    }
    if rng.once_in(20) {
        let at = rng.below(banner.len() + 1);
        let byte = rng.next() as u8;
        banner.insert(at, byte);
    }
    banner
}
