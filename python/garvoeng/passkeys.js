// The browser's side of `garvoeng.web`: passkeys.register(name), passkeys.signIn(), passkeys.autofill(), passkeys.list(),
// passkeys.rename(id, name), passkeys.retire(id) and passkeys.signOut(). Each returns the site's answer, or throws an Error with its text.
// To sign in afresh, a visitor who is signed in calls signIn({ again: true }); register(name, { fields }) passes the fields that a new user of
// Django needs. autofill() waits until the visitor chooses a passkey in an input with autocomplete="username webauthn", and returns null if
// the browser can't offer any; register or signIn ends it with an AbortError. An AbortSignal as the last argument ends a call.
const passkeys = (() => {
  const base = new URL(".", document.currentScript.src);
  const browser = () => import(new URL("browser.js", base));
  let hasToken = true;

  async function said(answer) {
    const value = await answer.json().catch(() => ({ error: answer.statusText || `the site answered ${answer.status}` }));
    if (!answer.ok) throw new Error(value.error);
    return value;
  }

  // The token that the site's framework requires of each post; a sign-in changes it.
  async function token() {
    if (!hasToken) return {};
    const { header, token } = await fetch(new URL("token", base)).then((answer) => (answer.ok ? answer.json() : {}));
    hasToken = header !== undefined;
    return hasToken ? { [header]: token } : {};
  }

  async function posted(path, body) {
    const headers = { "Content-Type": "application/json", ...(await token()) };
    return said(await fetch(new URL(path, base), { method: "POST", headers, body: JSON.stringify(body) }));
  }

  return {
    async register(name, more = {}, signal = undefined) {
      const { register } = await browser();
      return posted("register/finish", await register(await posted("register/begin", { name, ...more }), { signal }));
    },
    async signIn(more = {}, signal = undefined) {
      const { signIn } = await browser();
      return posted("sign-in/finish", await signIn(await posted("sign-in/begin", more), { signal }));
    },
    async autofill(signal = undefined) {
      const { autofill, canAutofill } = await browser();
      if (!(await canAutofill())) return null;
      return posted("sign-in/finish", await autofill(() => posted("sign-in/begin", {}), { signal }));
    },
    list: async () => said(await fetch(new URL("list", base))),
    rename: (id, name) => posted("rename", { id, name }),
    retire: (id) => posted("retire", { id }),
    signOut: () => posted("sign-out", {}),
  };
})();
