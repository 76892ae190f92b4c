use vezhnake::{BadDescription, BadImage, Error, Machine};

const DESCRIPTION: &str = include_str!("../../../examples/embed/counter.toml");

#[test]
fn an_image_is_built_checked_and_described() {
    let image = vezhnake::build(DESCRIPTION).unwrap();
    assert_eq!(image, vezhnake::example_image());
    let info = vezhnake::check(&image).unwrap();
    assert_eq!((info.generation, info.entries), (0, 0));
    assert_eq!(info.sectors as usize * 512, image.len());
    assert_eq!(vezhnake::explain(&image).unwrap(), "ok");
    let described = vezhnake::describe(&image).unwrap();
    assert_eq!(vezhnake::build(&described).unwrap(), image);
    let mut machine = Machine::over(image, 0).unwrap();
    machine.call(1, 6, [2, 3, 99]).unwrap();
    assert_eq!(machine.save().unwrap(), 1);
    let saved = machine.into_storage();
    assert_eq!(vezhnake::check(&saved).unwrap().generation, 1);
    assert!(vezhnake::describe(&saved).unwrap().contains("99"));
}

#[test]
fn bad_images_and_descriptions_have_reasons() {
    let refused = |text: &str| match vezhnake::build(text) {
        Err(Error::BadDescription(rule)) => rule,
        other => panic!("{other:?}"),
    };
    assert_eq!(refused("nodes = "), BadDescription::NotToml);
    assert_eq!(refused("nodes = 16"), BadDescription::Shape);
    assert_eq!(
        refused(&DESCRIPTION.replace("log = 16", "log = 15")),
        BadDescription::Limits
    );
    assert!(vezhnake::explain_description("nodes = 16")
        .unwrap()
        .ends_with("(bad description 1)"));
    let mut image = vezhnake::example_image();
    image[0] ^= 1;
    assert!(matches!(
        vezhnake::check(&image),
        Err(Error::BadImage(BadImage::NotASuperblock))
    ));
    assert!(vezhnake::explain(&image)
        .unwrap()
        .ends_with("(bad image 2)"));
    assert!(matches!(vezhnake::check(&image[1..]), Err(Error::BadSize)));
}
