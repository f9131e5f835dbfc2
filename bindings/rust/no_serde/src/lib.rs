compile_error!("this stands for serde where icu_locale_c is built by itself: name icu_locale_c as a dependency, as by_serde does");
