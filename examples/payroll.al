// A payroll: people in teams, teams in departments, departments in a company.
//
// All figures of a company are under its one lock. A person's salary names it by a path of three
// final references, team.department.company.l, the longest that there may be. What a person owns is
// under a lock of that person, so looking at an account waits for no one's pay day.
//
// check: first Company.l, then Person.own, as declared. pay takes the company's lock before its
// first statement, and the person's own where it pays in; raise takes the company's. The section
// check takes three paths before it reads what was paid; its if saw to it that they name one lock.

struct Company { lock l; int paid protected_by(l); }
struct Department { final ref Company company; int paid protected_by(company.l); }
struct Team { final ref Department department; int budget protected_by(department.company.l); }

struct Person {
  lock own;
  final ref Team team;
  int salary protected_by(team.department.company.l);
  int account protected_by(own);
}

pool Company company[1];
pool Department department[2];
pool Team team[2];
pool Person person[3];

init department[0].company = company[0];
init department[1].company = company[0];
init team[0].department = department[0];
init team[0].budget = 250;
init team[1].department = department[1];
init team[1].budget = 120;
init person[0].team = team[0];
init person[0].salary = 100;
init person[1].team = team[0];
init person[1].salary = 90;
init person[2].team = team[1];
init person[2].salary = 80;

// Pays a salary, or what the team still has. Returns what was paid.
atomic pay(ref Person p) : int {
  var sum: int = p.salary;
  if (p.team.budget < sum) { sum = p.team.budget; }
  p.team.budget = p.team.budget - sum;
  p.team.department.paid = p.team.department.paid + sum;
  p.team.department.company.paid = p.team.department.company.paid + sum;
  p.account = p.account + sum;
  return sum;
}

// More salary, by so many hundredths. Returns the new one.
atomic raise(ref Person p, int hundredths) : int {
  p.salary = p.salary + p.salary * hundredths / 100;
  return p.salary;
}

// What the company paid beyond what its two departments paid: always 0. Where it isn't the company
// of both, it is -1.
atomic check(ref Company c, ref Department d, ref Department e) : int {
  var beyond: int = -1;
  if (d.company == c && e.company == c && d != e) { beyond = c.paid - d.paid - e.paid; }
  return beyond;
}

thread march { pay(person[0]); pay(person[1]); pay(person[2]); raise(person[2], 15); }
thread april { pay(person[0]); pay(person[1]); pay(person[2]); }
thread auditor {
  check(company[0], department[0], department[1]);
  check(null, department[0], department[1]);
}
