//! The papers written out a second time, without any care for speed: a call
//! takes a partition apart into plain lists, changes these, and puts
//! everything together again.

use reference::Geometry;

use super::call::{digest, Answer, Call, BLANK};
use super::plain::*;

fn lengths(g: Geometry, memory: &[u8], flash: &[u8]) -> Result<(), Answer> {
    let partitions = 1usize << g.parts;
    check(memory.len() >= 32 + partitions * length(g), 2)?;
    check(
        flash.len() >= partitions * (g.kept * g.pages * g.page) as usize,
        3,
    )
}

fn check(holds: bool, number: u32) -> Result<(), Answer> {
    if holds {
        Ok(())
    } else {
        Err(Answer::Refused(number, 0))
    }
}

/// What the call answers and what it leaves, by the papers.
pub fn call_oracle(call: Call, memory: &mut [u8], flash: &mut [u8]) -> Answer {
    let answer = match call {
        Call::Format(g) => format(g, memory, flash),
        _ => open(memory, flash).and_then(|g| match call {
            Call::Put(key, value) => put(g, memory, flash, key, value),
            Call::Get(key) => get(g, memory, flash, key),
            Call::Del(key) => del(g, memory, key),
            Call::Flush(t) => flush(g, memory, flash, t),
            Call::View(t, q, n) => view(g, memory, flash, t, q, n),
            Call::Count(t) => count(g, memory, t),
            Call::Text(t, room) => text(g, memory, flash, t, room),
            Call::Drop(t) => drop_oldest(g, memory, flash, t),
            Call::Format(_) => unreachable!(),
        }),
    };
    answer.unwrap_or_else(|refused| refused)
}

fn format(g: Geometry, memory: &mut [u8], flash: &[u8]) -> Result<Answer, Answer> {
    check(allowed(g), 1)?;
    lengths(g, memory, flash)?;
    let mut bytes = Vec::new();
    for number in [
        g.parts, g.page, g.pages, g.kept, g.bits, g.hashes, g.list, 0,
    ] {
        push(&mut bytes, number.into(), 4);
    }
    memory[..32].copy_from_slice(&bytes);
    for t in 0..1usize << g.parts {
        let partition = Partition {
            flushes: 0,
            listed: 0,
            total: 0,
            live: 0,
            list: vec![(0, 0); g.list as usize],
            filters: vec![vec![false; g.bits as usize]; g.kept as usize],
            buffer: (0..g.pages)
                .map(|q| empty_page(g, t as u64, q.into()))
                .collect(),
        };
        write_partition(g, memory, t, &partition);
    }
    Ok(Answer::Done(0))
}

fn open(memory: &[u8], flash: &[u8]) -> Result<Geometry, Answer> {
    check(memory.len() >= 32, 2)?;
    let n: Vec<u32> = memory[..32].chunks(4).map(|w| number(w) as u32).collect();
    let g = Geometry::new([n[0], n[1], n[2], n[3], n[4], n[5], n[6]]);
    check(allowed(g) && n[7] == 0, 11)?;
    lengths(g, memory, flash)?;
    Ok(g)
}

/// The entries of a batch, by the heads of its pages: refusal 13.
fn count_entries(g: Geometry, flash: &[u8], t: usize, batch: i128) -> Result<i128, Answer> {
    let mut entries = 0;
    for q in 0..g.pages as usize {
        let at = flash_at(g, t, slot(g, batch), q);
        let page = read_page(&flash[at..at + g.page as usize]);
        if !expected(g, &page, t, q, batch) {
            return Err(Answer::Refused(13, q as u32 + 1));
        }
        entries += i128::from(page.count);
    }
    Ok(entries)
}

/// Takes the keys stamped with a batch off the list.
fn unlist_stamped(partition: &mut Partition, batch: i128) {
    let stamped = |i: &usize| i128::from(partition.list[*i].1 as u32) == batch;
    let places: Vec<usize> = (0..partition.listed as usize).filter(stamped).collect();
    partition.listed = take_out(&mut partition.list, partition.listed, &places);
}

/// Refusals 16, 13 and the last 12 of a flush with so many entries appended
/// after it: the total that the call ends with.
fn judge_flush(
    g: Geometry,
    partition: &Partition,
    flash: &[u8],
    t: usize,
    appended: i128,
) -> Result<i128, Answer> {
    check(partition.flushes < 4294967295, 16)?;
    let mut total = partition.total + appended;
    let kept = i128::from(g.kept);
    if partition.live == kept {
        total -= count_entries(g, flash, t, partition.flushes + 1 - kept)?;
    }
    check(total_fits(g, total), 12)?;
    Ok(total)
}

/// The flush that has passed every check.
fn write_batch(g: Geometry, partition: &mut Partition, flash: &mut [u8], t: usize) {
    let number = partition.flushes + 1;
    let slot = slot(g, number);
    partition.filters[slot] = vec![false; g.bits as usize];
    for q in 0..g.pages as usize {
        let mut page = partition.buffer[q].clone();
        for i in 0..page.count as usize {
            for b in bits(g, page.entries[i].0) {
                partition.filters[slot][b] = true;
            }
        }
        page.flush = number as u64;
        flash[flash_at(g, t, slot, q)..][..g.page as usize].copy_from_slice(&page_bytes(&page));
        partition.buffer[q] = empty_page(g, t as u64, q as u64);
    }
    unlist_stamped(partition, number - i128::from(g.kept));
    partition.flushes = number;
    partition.live = (partition.live + 1).min(g.kept.into());
}

fn put(
    g: Geometry,
    memory: &mut [u8],
    flash: &mut [u8],
    key: u64,
    value: u64,
) -> Result<Answer, Answer> {
    check(value != 0, 21)?;
    let (t, q) = home(g, key);
    let mut partition = read_partition(g, memory, t);
    check(
        head_fits(g, &partition) && fits(g, &partition.buffer[q]),
        12,
    )?;
    let mut written = 0;
    if let Some(i) = find(&partition.buffer[q].entries, partition.buffer[q].count, key) {
        partition.buffer[q].entries[i].1 = value;
    } else {
        if partition.buffer[q].count == u64::from(g.page) / 16 - 1 {
            check(partition.buffer.iter().all(|page| fits(g, page)), 12)?;
            partition.total = judge_flush(g, &partition, flash, t, 1)?;
            write_batch(g, &mut partition, flash, t);
            written = g.pages;
        } else {
            partition.total += 1;
            check(total_fits(g, partition.total), 12)?;
        }
        let page = &mut partition.buffer[q];
        page.entries[page.count as usize] = (key, value);
        page.count += 1;
    }
    if let Some(i) = find(&partition.list, partition.listed, key) {
        partition.listed = take_out(&mut partition.list, partition.listed, &[i]);
    }
    write_partition(g, memory, t, &partition);
    Ok(Answer::Done(written))
}

fn get(g: Geometry, memory: &[u8], flash: &[u8], key: u64) -> Result<Answer, Answer> {
    let (t, q) = home(g, key);
    let partition = read_partition(g, memory, t);
    let page = &partition.buffer[q];
    check(head_fits(g, &partition) && fits(g, page), 12)?;
    if find(&partition.list, partition.listed, key).is_some() {
        return Ok(Answer::None(0, 0));
    }
    let (mut reads, mut compared) = (0, 0);
    if let Some(value) = search(page, key, &mut compared) {
        return Ok(Answer::Found(value, 0, compared, 0));
    }
    for (number, slot) in passing(g, &partition, key) {
        reads += 1;
        let page = read_page(&flash[flash_at(g, t, slot, q)..][..g.page as usize]);
        if !expected(g, &page, t, q, number) {
            return Err(Answer::Refused(13, reads));
        }
        if let Some(value) = search(&page, key, &mut compared) {
            return Ok(Answer::Found(value, reads, compared, number as u32));
        }
    }
    Ok(Answer::None(reads, compared))
}

fn del(g: Geometry, memory: &mut [u8], key: u64) -> Result<Answer, Answer> {
    let (t, q) = home(g, key);
    let mut partition = read_partition(g, memory, t);
    check(
        head_fits(g, &partition) && fits(g, &partition.buffer[q]),
        12,
    )?;
    if find(&partition.list, partition.listed, key).is_some() {
        return Ok(Answer::Done(0));
    }
    let youngest = passing(g, &partition, key).first().copied();
    check(youngest.is_none() || partition.listed < g.list.into(), 14)?;
    let page = &mut partition.buffer[q];
    if let Some(i) = find(&page.entries, page.count, key) {
        partition.total -= 1;
        check(total_fits(g, partition.total), 12)?;
        page.count = take_out(&mut page.entries, page.count, &[i]);
    }
    if let Some((number, _)) = youngest {
        partition.list[partition.listed as usize] = (key, number as u64);
        partition.listed += 1;
    }
    write_partition(g, memory, t, &partition);
    Ok(Answer::Done(0))
}

fn flush(g: Geometry, memory: &mut [u8], flash: &mut [u8], t: u32) -> Result<Answer, Answer> {
    check(t < 1 << g.parts, 4)?;
    let mut partition = read_partition(g, memory, t as usize);
    let fit = partition.buffer.iter().all(|page| fits(g, page));
    check(head_fits(g, &partition) && fit, 12)?;
    check(partition.buffer.iter().any(|page| page.count > 0), 15)?;
    partition.total = judge_flush(g, &partition, flash, t as usize, 0)?;
    write_batch(g, &mut partition, flash, t as usize);
    write_partition(g, memory, t as usize, &partition);
    Ok(Answer::Done(g.pages))
}

fn count(g: Geometry, memory: &[u8], t: u32) -> Result<Answer, Answer> {
    check(t < 1 << g.parts, 4)?;
    let partition = read_partition(g, memory, t as usize);
    check(head_fits(g, &partition), 12)?;
    Ok(Answer::Counted(partition.total as u32))
}

fn drop_oldest(g: Geometry, memory: &mut [u8], flash: &[u8], t: u32) -> Result<Answer, Answer> {
    check(t < 1 << g.parts, 4)?;
    let mut partition = read_partition(g, memory, t as usize);
    check(head_fits(g, &partition), 12)?;
    check(partition.live > 0, 23)?;
    let oldest = partition.flushes - partition.live + 1;
    partition.total -= count_entries(g, flash, t as usize, oldest)?;
    check(total_fits(g, partition.total), 12)?;
    partition.live -= 1;
    let listed = partition.listed;
    unlist_stamped(&mut partition, oldest);
    write_partition(g, memory, t as usize, &partition);
    Ok(Answer::Dropped((listed - partition.listed) as u32))
}

fn view(
    g: Geometry,
    memory: &[u8],
    flash: &[u8],
    t: u32,
    q: u32,
    n: u32,
) -> Result<Answer, Answer> {
    check(t < 1 << g.parts && q < g.pages, 4)?;
    let (t, q, size) = (t as usize, q as usize, g.page as usize);
    let partition = read_partition(g, memory, t);
    check(head_fits(g, &partition), 12)?;
    if n == 0 {
        check(fits(g, &partition.buffer[q]), 12)?;
        let at = 32 + (t + 1) * length(g) - (g.pages as usize - q) * size;
        return Ok(Answer::InMemory(at, size));
    }
    let n = i128::from(n);
    let f = partition.flushes;
    check(n <= f && n > f - partition.live, 17)?;
    let at = flash_at(g, t, slot(g, n), q);
    if expected(g, &read_page(&flash[at..at + size]), t, q, n) {
        Ok(Answer::InFlash(at, size))
    } else {
        Err(Answer::Refused(13, 1))
    }
}

/// All pages of a partition that a text reads, the oldest batch first and the
/// buffer last, with the flush number and the page number of each.
fn text_pages(
    g: Geometry,
    memory: &[u8],
    flash: &[u8],
    t: usize,
) -> Result<Vec<(u32, usize, Page)>, Answer> {
    let partition = read_partition(g, memory, t);
    let fit = partition.buffer.iter().all(|page| fits(g, page));
    check(head_fits(g, &partition) && fit, 12)?;
    let mut pages = Vec::new();
    let mut batches: Vec<_> = live(g, partition.flushes, partition.live).collect();
    batches.reverse();
    for (number, slot) in batches {
        for q in 0..g.pages as usize {
            let page = read_page(&flash[flash_at(g, t, slot, q)..][..g.page as usize]);
            check(expected(g, &page, t, q, number), 13)?;
            pages.push((number as u32, q, page));
        }
    }
    let buffer = partition.buffer.into_iter().enumerate();
    pages.extend(buffer.map(|(q, page)| (0, q, page)));
    Ok(pages)
}

fn text(g: Geometry, memory: &[u8], flash: &[u8], t: u32, room: usize) -> Result<Answer, Answer> {
    check(t < 1 << g.parts, 4)?;
    let mut text = String::new();
    for (number, q, page) in text_pages(g, memory, flash, t as usize)? {
        for (i, &(key, value)) in page.entries[..page.count as usize].iter().enumerate() {
            // A get tells the batch, and the key its page: the place in it is left.
            let here = home(g, key) == (t as usize, q)
                && find(&page.entries, page.count, key) == Some(i)
                && matches!(get(g, memory, flash, key)?, Answer::Found(.., n) if n == number);
            if here {
                text += &format!("(put {key} {value})\n");
            }
        }
    }
    check(text.len() <= room, 22)?;
    let mut area = vec![BLANK; room];
    area[..text.len()].copy_from_slice(text.as_bytes());
    Ok(Answer::Text(text.len(), digest(&area)))
}
