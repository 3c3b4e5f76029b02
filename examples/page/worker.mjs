// Behind grumpy.mjs and paid.mjs in a Worker: the first message has the bytes of the box, every other what is asked. No
// answer means that the stack was too short.
let box;
onmessage = async ({ data }) => {
  if (data instanceof Uint8Array) {
    box = Grumpy.load(data);
    return;
  }
  try {
    postMessage({ asked: data, answer: paid(await box, data) });
  } catch (error) {
    if (!(error instanceof NoStack)) throw error;
    postMessage({ asked: data });
  }
};
