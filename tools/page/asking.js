// Asks the server, and says what it refuses.

export class Refusal extends Error {}

// The token is a part of the page's own address, so it goes with each request.
export async function ask(what, body = {}) {
  const answer = await fetch(what, { method: "POST", headers: { "Content-Type": "application/json" }, body: JSON.stringify(body) });
  const said = await answer.json();
  if (!answer.ok) throw new Refusal(said.why || `status ${answer.status}`);
  return said;
}
