// Labels: a prefix and a number in so many digits, by docs/FORMATS.md (bp_bates).
export const labelOf = ({ prefix, width }, number) => prefix + String(number).padStart(width, '0')

export const spanOf = (production, { first, last }) =>
  first === last ? labelOf(production, first) : `${labelOf(production, first)} to ${labelOf(production, last)}`
