"""Lists with names, for generate.py: some have a number of their own, some are used by several attributes, some by none."""
from rulefile import List


class WithLists:
    """what a maker of rules does about lists; its `random`, `name`, `written`, `braces`, `value_names` and `add` are the maker's"""

    def plan_lists(self, wanted):
        """sets `lists`, those that are declared, and `waiting`, those that will be"""
        self.lists, self.waiting = [], []
        if not wanted:
            return
        many, fixed = self.random.choice([0, 1, 2, 3, 3, 5, 31]), self.random.choice([0, 0.5, 0.5, 1])
        # low numbers, which other lists would take if they were not fixed, or any
        greatest = min(31, self.random.choice([many + 1, many + 1, 31]))
        for number in self.random.sample(range(1, greatest + 1), many):
            size = self.random.choice([1, 2, 2, 3, 3, 4, 5, 8, self.random.randint(1, 16)])
            names, own = self.value_names(size), number if self.random.random() < fixed else None
            self.waiting.append(List(self.name([other.name for other in self.waiting]), size, names, own))

    def declare(self, chosen):
        """declares a list that is waiting"""
        self.waiting.remove(chosen)
        self.lists.append(chosen)
        self.add("list", self.written(chosen.name), *[str(chosen.fixed)] * (chosen.fixed is not None), "=")
        self.add(*self.braces(chosen.names) if chosen.names else [str(chosen.size)])

    def maybe_declare(self):
        """declares a list now and then, whether or not anything uses it"""
        if self.waiting and self.random.random() < 0.2:
            self.declare(self.random.choice(self.waiting))

    def used_list(self, is_set):
        """a list with a name for an attribute, or None for one in place"""
        fit = [each for each in self.lists + self.waiting if each.size <= (8 if is_set else 16)]
        return self.random.choice(fit) if fit and self.random.random() < 0.7 else None

    def finish_lists(self):
        """declares what is still waiting; each list without a number of its own takes the lowest that none of the text has and none before it took"""
        for each in list(self.waiting):
            self.declare(each)
        taken = {each.fixed for each in self.lists}
        for each in self.lists:
            each.number = each.fixed or min(set(range(1, 32)) - taken)
            taken.add(each.number)
