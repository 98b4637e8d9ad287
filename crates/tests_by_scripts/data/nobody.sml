class: T state: S action: GO do GO all_in E object: X is_of_class T objectset: E { }
