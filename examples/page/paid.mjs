// What a box does: it looks at the type before anything is run, since a wage is an int. How many units the sheet can
// use at most is known besides, if it must finish.
function paid(box, { sheet, picks, rate, edition }) {
  const call = `pay(${picks},${rate})`;
  const checked = box.checkPair(sheet, call, { edition });
  if (checked.number !== 0 || checked.type !== "int") return { ...checked, printed: new Uint8Array() };
  const { number, units } = box.profile(`${sheet}\n${call}`, { edition });
  return { ...box.pay(sheet, picks, rate, { edition }), most: number === 0 ? units : null };
}
