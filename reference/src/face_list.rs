//! The packed face list: reading it (refusal 20), writing it, and a reported solid written as one.
use crate::bits::{FieldReader, FieldWriter};
use crate::drawing::Loop;
use crate::numbers::*;

/// The faces of a list for a drawing of so many vertices; nothing is ShellShape.
pub fn read_faces(bytes: &[u8], vertices: usize) -> Option<Vec<Loop>> {
    let mut fields = FieldReader::new(bytes);
    if fields.take(width::EDITION)? != EDITION {
        return None;
    }
    let faces = fields.take(width::FACES)? as usize;
    if !FACES.contains(&faces) {
        return None;
    }
    let faces = (0..faces).map(|_| read_face(&mut fields, vertices)).collect::<Option<Vec<Loop>>>()?;
    let fill = fields.left();
    if fill >= 8 || fields.take(fill)? != 0 {
        return None;
    }
    Some(faces)
}

fn read_face(fields: &mut FieldReader, vertices: usize) -> Option<Loop> {
    let corners = fields.take(width::CORNERS)? as usize;
    if !CORNERS.contains(&corners) {
        return None;
    }
    (0..corners).map(|_| fields.take(width::END).map(|c| c as usize).filter(|c| *c < vertices)).collect()
}

/// Packs faces without a look at any rule.
pub fn pack_faces(faces: &[Loop]) -> Vec<u8> {
    let mut fields = FieldWriter::default();
    fields.put(width::EDITION, EDITION);
    fields.put(width::FACES, faces.len() as u32);
    for face in faces {
        fields.put(width::CORNERS, face.len() as u32);
        for corner in face {
            fields.put(width::END, *corner as u32);
        }
    }
    fields.bytes()
}

/// A solid's faces, from the rows of a report and the solid's record, in which a word that isn't there is 0: in order, turned ones from
/// the same corner the other way round. Nothing where they make no list.
pub fn solid_faces(rows: &[u8], solid: &[u64]) -> Option<Vec<Loop>> {
    let has = |word: usize, c: usize| solid.get(word).is_some_and(|set| set >> c & 1 == 1);
    let chosen = (0..MOST_CANDIDATES).filter(|c| has(0, *c));
    let faces = chosen.map(|c| row_face(rows, c, has(1, c))).collect::<Option<Vec<Loop>>>();
    faces.filter(|faces| FACES.contains(&faces.len()))
}

/// Writes a solid as a face list. 20 where its faces make none, 1 where the room is shorter than it.
pub fn send_solid(rows: &[u8], solid: &[u64], room: &mut [u8]) -> Result<usize, Refusal> {
    let Some(faces) = solid_faces(rows, solid) else { return refuse(SHELL_SHAPE, 0) };
    let list = pack_faces(&faces);
    let Some(part) = room.get_mut(..list.len()) else { return refuse(NO_ROOM, 0) };
    part.copy_from_slice(&list);
    Ok(list.len())
}

/// The face in row c, if the row is there and holds one.
fn row_face(rows: &[u8], c: usize, turned: bool) -> Option<Loop> {
    let row = rows.get(FACE_ROW * c..FACE_ROW * (c + 1))?;
    let corners = Some(row[0] as usize).filter(|corners| CORNERS.contains(corners))?;
    let mut face: Loop = row[1..=corners].iter().map(|corner| *corner as usize).collect();
    if turned {
        face[1..].reverse();
    }
    Some(face).filter(|face| face.iter().all(|corner| *corner < *VERTICES.end()))
}
