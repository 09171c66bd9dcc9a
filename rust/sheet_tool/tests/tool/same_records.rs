//! A sheet's records are those of the independent model, and of a unit that is
//! stepped through the sheet by the host's functions; a text's with a table or
//! with calls are the model's too.

use model::{BucketSet, Unit, Window};
use sheet_tool::event::Event;
use sheet_tool::records::{run, Timed};
use sheet_tool::script::{timed, Host};
use sheet_tool::sheet::Sheet;
use sheet_tool::step::{Call, Step};
use sheet_tool::stepped::moments;

pub fn check(sheet: &Sheet) {
    let records = run(sheet);
    let model = model::records(&sheet.to_bytes()).expect("a sheet that is not refused");
    compare(&records, &model);
    let moments = moments(sheet, &records).expect("no difference");
    assert_eq!(moments.len(), records.len() + 1);
    assert_eq!(timed(&moments), records);
}

/// The records of a text with a table or with calls.
pub fn check_host(host: &Host) {
    let mut unit = Unit::fresh();
    if let Some(table) = &host.table {
        assert_eq!(unit.load(table), 0);
    }
    let record = |step: &Step| {
        let refusal = given_to_the_model(&mut unit, step);
        let [state, qualified, status] = [0x48, 0x46, 0x49].map(|address| unit.read(address).1);
        [refusal, state, qualified, status]
    };
    let model: Vec<model::Record> = host.steps.iter().map(record).collect();
    compare(&timed(&host.moments()), &model);
}

fn compare(records: &[Timed], model: &[model::Record]) {
    assert_eq!(records.len(), model.len());
    for (index, (timed, &model)) in records.iter().zip(model).enumerate() {
        let record = timed.record;
        let bytes = [
            record.refusal,
            record.state,
            record.qualified,
            record.status,
        ];
        assert_eq!(bytes, model, "record {}", index);
    }
}

/// The refusal's number.
fn given_to_the_model(unit: &mut Unit, step: &Step) -> u8 {
    match *step {
        Step::Event(Event { kind, a, b, word }) => unit.event_fields(kind, a, b, word),
        Step::Call(Call::AssignBucket { input, set }) => {
            unit.call(&model::Call::AssignBucket { input, set })
        }
        Step::Call(Call::SetBucket { set, numbers }) => {
            let [size, set_level, clear_level, decay] = numbers;
            let numbers = BucketSet::of(size, set_level, clear_level, decay);
            unit.call(&model::Call::SetBucket { set, numbers })
        }
        Step::Call(Call::SetWeek { place }) => unit.call(&model::Call::SetWeek { place }),
        Step::Call(Call::SetWindows { ref windows }) => {
            let windows = windows
                .iter()
                .map(|window| Window::of(window.start, window.end));
            unit.call(&model::Call::windows(&windows.collect::<Vec<_>>()))
        }
    }
}
