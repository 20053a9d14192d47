// What the page asks of its own server. Each question is one path below the page's own address.

export class Fault extends Error {}

async function answer(path, options) {
  let got;
  try {
    got = await fetch(path, { cache: "no-store", credentials: "omit", ...options });
  } catch (error) {
    throw new Fault("the workbench does not answer: start tools/workbench again; the script is safe in its file");
  }
  const value = await got.json().catch(() => ({ why: "the workbench answered with no words" }));
  if (got.ok) return value;
  const fault = new Fault(value.why || "the workbench refused");
  fault.state = value.state;
  throw fault;
}

export const ask = (name) => answer("api/" + name);

export const tell = (name, value) =>
  answer("api/" + name, { method: "POST", headers: { "Content-Type": "application/json" },
    body: JSON.stringify(value) });
