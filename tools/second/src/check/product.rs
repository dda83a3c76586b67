//! Steps 3 and 4: the GPK in 640, then the patient's age and sex.

use super::entry::Entry;
use super::tables::Row640;
use super::test::Test;

const BOTH_SEXES: u32 = 3;

pub fn product<'t>(t640: &'t [Row640], entry: &Entry) -> Result<&'t Row640, Test> {
    if entry.gpk == 0 {
        return Err(Test::NoGpk);
    }
    let rows: Vec<&Row640> = t640.iter().filter(|row| row.gpkode == entry.gpk).collect();
    match rows[..] {
        [] => Err(Test::GpkAbsent),
        [row] => Ok(row),
        _ => Err(Test::GpkSeveral),
    }
}

/// The age, once age and sex have passed.
pub fn patient(product: &Row640, entry: &Entry) -> Result<u32, Test> {
    let age = entry.age.ok_or(Test::AgeMissing)?;
    sex(product, entry)?;
    Ok(age)
}

fn sex(product: &Row640, entry: &Entry) -> Result<(), Test> {
    if product.gpdgst == BOTH_SEXES {
        return Ok(());
    }
    let sex = entry.sex.ok_or(Test::SexMissing)?;
    if sex != product.gpdgst {
        return Err(Test::SexDiffers);
    }
    Ok(())
}
