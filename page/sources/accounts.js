// ---------- Accounts: what they are by their names ----------

// What an account is, by the first part of its name; a person may choose otherwise, for this browser.
const KIND_NAMES = {
  income: /^(incomes?|revenues?|ertrag|erträge|einnahmen?|erlöse?)$/i,
  expense: /^(expenses?|aufwand|aufwände|aufwendungen|ausgaben?|kosten)$/i,
  asset: /^(assets?|vermögen|aktiva|guthaben)$/i,
  liability: /^(liabilit(y|ies)|debts?|verbindlichkeit(en)?|schulden)$/i,
};
const KINDS = ["income", "expense", "asset", "liability", "other"];
const firstPart = account => account.split(":")[0];
const isTransit = account => account === "assets:transit" || account.startsWith("assets:transit:");
function kindOf(account) {
  if (isTransit(account)) return "transit";
  const name = firstPart(account), chosen = kept("kinds", {})[name];
  return chosen ?? Object.keys(KIND_NAMES).find(kind => KIND_NAMES[kind].test(name)) ?? "other";
}
