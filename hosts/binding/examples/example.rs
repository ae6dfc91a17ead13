use uppinalo::{Axis, Fields};

fn main() -> Result<(), Box<dyn std::error::Error>> {
    let axis = Axis::of_units("noleap", None, "days since 1850-01-01")?;
    let offsets = [59.5, 0.1];
    let mut instants = [0; 2];
    let run = axis.read_doubles(&offsets, &mut instants)?;
    for (offset, instant) in offsets.iter().zip(instants) {
        println!("{offset}: {}", axis.iso_text(instant)?);
    }
    println!("rounded: {}", run.rounded);
    let fields = Fields { year: 1850, month: 3, day: 1, ..Default::default() };
    println!("1850-03-01: {}", axis.write_fields(fields)?);
    if let Err(refusal) = axis.write_fields(Fields { hour: 12, ..fields }) {
        println!("1850-03-01, noon: refused {}", refusal.number());
    }
    let axis = Axis::of_units("standard", None, "calendar months since 1930-01-31")?;
    let reading = axis.read(1)?;
    let text = axis.iso_text(reading.instant)?;
    println!("1930-01-31 and a month: {text}, {} days back", reading.days_back);
    Ok(())
}
