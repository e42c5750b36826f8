// Questions to the server of the page.

const token = document.querySelector('meta[name="token"]').content;

/** A question that failed: the server did not answer, or refused the request itself. */
export class Failed extends Error {}

/** The answer to a question. What the program refuses is an answer with `refused`. */
export async function ask(name, fields, signal) {
  let response;
  try {
    response = await fetch(`/ask/${name}`, {
      method: "POST",
      headers: { "Content-Type": "application/json", "X-Page-Token": token },
      body: JSON.stringify(fields),
      signal,
    });
  } catch (fault) {
    if (fault.name === "AbortError") throw fault;
    throw new Failed("The server does not answer. Is sandhi-page still running?");
  }
  const answer = await response.json();
  if (!response.ok) throw new Failed(`The server refused the request: ${answer.failed}.`);
  return answer;
}

/** Whether a fault is that of a question which a newer one has taken the place of. */
export function wasReplaced(fault) {
  return fault?.name === "AbortError";
}
