// Groups the pieces of a normal text by their kinds. What each piece is, and where it stands, the proved module says; the
// grouping is not proved, but tested.

const emptyIdentifier = () => ({ language: '', script: '', region: '', variants: [] });

// Puts a piece where it belongs. `keys` says the last key of each extension.
function placeIn(found, keys, { text, kind, of }) {
  if (of === 't') found.transform ??= { ...emptyIdentifier(), fields: {} };
  const identifier = of === 't' ? found.transform : found;
  const fields = of === 't' ? found.transform.fields : found.keywords;
  if (kind === 'language' || kind === 'script' || kind === 'region') identifier[kind] = text;
  else if (kind === 'variant') identifier.variants.push(text);
  else if (kind === 'attribute') found.attributes.push(text);
  else if (kind === 'key' || kind === 'field') fields[keys[of] = text] = '';
  else if (kind === 'value') fields[keys[of]] += (fields[keys[of]] && '-') + text;
  else if (kind === 'private') found.private.push(text);
  else if (kind === 'other') found.others[of] = found.others[of] ? `${found.others[of]}-${text}` : text;
}

/** The parts of a normal text, by its pieces: each of them also says the singleton of its extension. */
export function partsBy(normal, pieces) {
  const found = { normal, ...emptyIdentifier(), attributes: [], keywords: {}, transform: null, others: {}, private: [], pieces };
  const keys = {};
  let of = '';
  for (const it of pieces) {
    if (it.kind === 'singleton') of = it.text;
    it.of = of;
    placeIn(found, keys, it);
  }
  return found;
}
